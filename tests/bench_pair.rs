// The library's bench and the model's side by side: each call goes to both, and the answer, what is handed on, every octet lent
// and the whole bench after it are compared. A call that takes `shift` goes to the library under each engine.

use crate::as_model::{device_read, master_read, point_read, port_read};
use crate::comparisons::Comparisons;
use crate::engines::by_engines;
use crate::library::{self, Bench, BenchTold, ReplyTold};
use crate::model::bench::{BenchModel, Reply, Shown};
use crate::model::spdu::Direction;
use crate::random::Random;

/// In the place of the engine's text, for a call that takes no engine.
const UNSIGNED: &str = "without a signature";
/// The octets on either side of a buffer that is written.
const GUARD: usize = 16;

pub struct Pair {
    pub comparisons: Comparisons,
    pub bench: Bench,
    pub model: BenchModel,
    /// What the model's ports show. A call changes no port but the one addressed, so that the others are not asked again.
    expected: [Shown; 8],
    pub calls: u64,
    /// How often each number was answered, 13 being a session's alone, and how often each row acted.
    pub answers: [u64; 13],
    pub rows: [u64; 32],
    pub passed: [[u64; 32]; 2],
    /// How often each number was answered where handed on octets were copied.
    pub copies: [u64; 13],
}

/// A buffer with octets on either side of the part that is lent.
pub struct Lent {
    octets: Vec<u8>,
    start: usize,
    end: usize,
}

impl Lent {
    pub fn new(random: &mut Random, size: usize) -> Lent {
        let start = GUARD + random.below(8);
        let end = start + size;
        Lent { octets: random.octets(end + GUARD), start, end }
    }

    fn part(&self) -> &[u8] {
        &self.octets[self.start..self.end]
    }

    /// The whole buffer with another part.
    fn with(&self, part: &[u8]) -> Vec<u8> {
        [&self.octets[..self.start], part, &self.octets[self.end..]].concat()
    }
}

fn reply_read(reply: &ReplyTold) -> Reply {
    Reply {
        number: reply.number,
        offset: reply.offset.into(),
        marks: [reply.master, reply.device],
        releases: [reply.master_releases, reply.device_releases],
    }
}

fn all_shown(model: &BenchModel) -> [Shown; 8] {
    std::array::from_fn(|place| model.shown(place as u8 + 1))
}

impl Pair {
    pub fn new() -> Pair {
        let model = BenchModel::new();
        Pair {
            comparisons: Comparisons::new("bench"),
            bench: library::new_bench(),
            expected: all_shown(&model),
            model,
            calls: 0,
            answers: [0; 13],
            rows: [0; 32],
            passed: [[0; 32]; 2],
            copies: [0; 13],
        }
    }

    /// Both anew: no port runs.
    pub fn start(&mut self) {
        self.take_rows();
        self.model = BenchModel::new();
        self.expected = all_shown(&self.model);
        self.bench = library::new_bench();
        let bench = self.bench;
        self.compare_bench("new_bench", 0, &bench);
    }

    /// Adds the rows that the model took so far, and those of responses that passed, to those of the run.
    pub fn take_rows(&mut self) {
        let counts = self.rows.iter_mut().chain(self.passed.iter_mut().flatten());
        let taken = self.model.rows.iter_mut().chain(self.model.passed.iter_mut().flatten());
        for (count, taken) in counts.zip(taken) {
            *count += std::mem::take(taken);
        }
    }

    /// After the model, or the library's bench, was changed by hand.
    pub fn expect_again(&mut self, port: u8) {
        self.expected[usize::from(port) - 1] = self.model.shown(port);
    }

    pub fn compare<T: PartialEq + std::fmt::Debug>(
        &mut self,
        call: &str,
        port: u8,
        expected: T,
        found: T,
    ) {
        let calls = self.calls;
        self.comparisons
            .compare(expected, found, || format!("{call} at port {port}, call {calls}"));
    }

    fn compare_bench(&mut self, call: &str, port: u8, found: &Bench) {
        let calls = self.calls;
        for (place, (expected, found)) in self.expected.iter().zip(&found.ports).enumerate() {
            self.comparisons.compare(expected, &port_read(found), || {
                format!("port {} after {call} at port {port}, call {calls}", place + 1)
            });
        }
    }

    /// "A refusal changes no state", and a call at one port none of another's: in every field, also those that the model
    /// has no use for.
    fn compare_untouched(&mut self, call: &str, port: u8, number: u8, found: &Bench) {
        let may_change = |place: usize| number == 0 && place + 1 == usize::from(port);
        let changed = (0..8)
            .find(|&place| !may_change(place) && self.bench.ports[place] != found.ports[place]);
        self.compare(call, port, None, changed);
    }

    fn count(&mut self, number: u8) {
        self.calls += 1;
        self.answers[usize::from(number)] += 1;
    }

    /// `told`: by each engine, or once of a call that takes none; the bench goes on from the first. `happened`: the call is no
    /// parameter block. `lent` are the SPDU and the safe values of the FS-Master, then those of the FS-Device.
    fn follow(
        &mut self,
        call: &str,
        port: u8,
        expected: Reply,
        told: &[(&str, BenchTold)],
        happened: bool,
        lent: [[&[u8]; 2]; 2],
    ) -> Reply {
        self.count(expected.number);
        if expected.number == 0 {
            self.expect_again(port);
        }
        for (engine, told) in told {
            let call = format!("{call} {engine}");
            self.compare(&call, port, expected, reply_read(&told.reply));
            self.compare_bench(&call, port, &told.bench);
            self.compare_untouched(&call, port, expected.number, &told.bench);
        }
        let (_, told) = told[0];
        self.bench = told.bench;
        for (end, mark) in [told.reply.master, told.reply.device].into_iter().enumerate() {
            if happened && expected.number == 0 {
                let part = self.model.handed_on[end].clone();
                self.compare_words(call, port, end, mark, lent[end], &part);
            }
            self.handed_on(call, port, end, mark, lent[end]);
        }
        self.try_handing_on(call, port, lent);
        expected
    }

    /// What a call's own mark hands on is what 01 says of the call.
    fn compare_words(
        &mut self,
        call: &str,
        port: u8,
        end: usize,
        mark: u8,
        lent: [&[u8]; 2],
        part: &[u8],
    ) {
        let buffer = [0x5A; 40];
        let expected = self.model.copied(port, part, &buffer);
        let found = self.model.hand_on(port, end, mark, lent, &buffer);
        self.compare(&format!("words of {call}"), port, expected, found);
    }

    /// What no call of the bench's own led to: another end, mark or port, an SPDU with a flipped bit or of another length, safe
    /// values that are not zero or too few.
    fn try_handing_on(&mut self, call: &str, port: u8, lent: [[&[u8]; 2]; 2]) {
        let n = self.calls as usize;
        let (end, mark) = (n % 2, [0, 0, 1, 2, 3, 255][n / 2 % 6]);
        let port = if n % 11 == 0 { (n / 11 % 12) as u8 } else { port };
        let from = if n % 7 == 0 { 1 - end } else { end };
        let mut spdu = lent[from][0].to_vec();
        let mut safe = lent[from][1].to_vec();
        if n % 3 == 0 && !spdu.is_empty() {
            let bit = n / 3 % (8 * spdu.len());
            spdu[bit / 8] ^= 1 << (bit % 8);
        }
        if n % 13 == 0 {
            spdu.pop();
        }
        if n % 5 == 0 && !safe.is_empty() {
            let place = n / 5 % safe.len();
            safe[place] = 0xFF;
        }
        if n % 17 == 0 {
            safe.pop();
        }
        self.handed_on(call, port, end, mark, [&spdu, &safe]);
    }

    /// The part that a mark hands on, copied to a buffer of its length, to longer ones and to a shorter one.
    fn handed_on(&mut self, call: &str, port: u8, end: usize, mark: u8, lent: [&[u8]; 2]) {
        let (_, length, _) = self.model.hand_on(port, end, mark, lent, &[0; 40]);
        let room = [length, length + 3, length.saturating_sub(1), 40][self.calls as usize % 4];
        let octets = (0..room + 2 * GUARD).map(|place| (11 + 5 * place) as u8).collect();
        let out = Lent { octets, start: GUARD, end: GUARD + room };
        let (number, count, later) = self.model.hand_on(port, end, mark, lent, out.part());
        self.copies[usize::from(number)] += 1;
        let call = format!("handed_on after {call}, end {end}, mark {mark},");
        let [spdu, safe] = lent;
        self.compare_written(&call, port, &out, ((number, count), &later), |shift, bench, out| {
            let told = library::handed_on(shift, bench, port, end == 1, mark, spdu, safe, out);
            (told.number, told.octets)
        });
    }

    /// Zeros of the right length at a port that runs, for the end whose safe values a call does not take.
    fn zeros(&self, port: u8, direction: Direction) -> Vec<u8> {
        self.model
            .format(port, direction)
            .map_or(vec![], |format| vec![0; usize::from(format.length) - format.safety_octets()])
    }

    pub fn set_parameters(&mut self, port: u8, at: u32, octets: &[u8]) -> Reply {
        let expected = self.model.set_parameters(port, at, octets);
        let told =
            by_engines(|shift| library::set_parameters(shift, &self.bench, port, at, octets));
        self.follow("set_parameters", port, expected, &told, false, [[&[]; 2]; 2])
    }

    pub fn receive_response(&mut self, port: u8, at: u32, spdu: &[u8], safe: &[u8]) -> Reply {
        let expected = self.model.receive_response(port, at, spdu, safe);
        let told =
            by_engines(|shift| library::receive_response(shift, &self.bench, port, at, spdu, safe));
        let zeros = self.zeros(port, Direction::Request);
        self.follow("receive_response", port, expected, &told, true, [[spdu, safe], [&[], &zeros]])
    }

    pub fn receive_request(&mut self, port: u8, at: u32, spdu: &[u8], safe: &[u8]) -> Reply {
        let expected = self.model.receive_request(port, at, spdu, safe);
        let told =
            by_engines(|shift| library::receive_request(shift, &self.bench, port, at, spdu, safe));
        let zeros = self.zeros(port, Direction::Response);
        self.follow("receive_request", port, expected, &told, true, [[&[], &zeros], [spdu, safe]])
    }

    pub fn clock(&mut self, port: u8, at: u32, safe_in: &[u8], safe_out: &[u8]) -> Reply {
        let expected = self.model.clock(port, at, safe_in, safe_out);
        let told = [(UNSIGNED, library::clock(&self.bench, port, at, safe_in, safe_out))];
        self.follow("clock", port, expected, &told, true, [[&[], safe_in], [&[], safe_out]])
    }

    pub fn operator(&mut self, port: u8, at: u32, signals: [bool; 2], safe: &[u8]) -> Reply {
        let expected = self.model.operator(port, at, signals, safe);
        let told = [(UNSIGNED, library::operator(&self.bench, port, at, signals, safe))];
        let zeros = self.zeros(port, Direction::Request);
        self.follow("operator", port, expected, &told, true, [[&[], safe], [&[], &zeros]])
    }

    /// What the call tells and the whole buffer are compared, by each engine. `expected`: what is told, and the part lent after it.
    fn compare_written<T: PartialEq + std::fmt::Debug>(
        &mut self,
        call: &str,
        port: u8,
        lent: &Lent,
        expected: (T, &[u8]),
        found: impl Fn(bool, &Bench, &mut [u8]) -> T,
    ) {
        let (told, part) = expected;
        let whole = lent.with(part);
        let by_engine = by_engines(|shift| {
            let mut buffer = lent.octets.clone();
            (found(shift, &self.bench, &mut buffer[lent.start..lent.end]), buffer)
        });
        for (engine, (found, buffer)) in by_engine {
            self.compare(&format!("{call} {engine}"), port, (&told, &whole), (&found, &buffer));
        }
    }

    /// The part lent, where the call was taken.
    fn written(
        &mut self,
        call: &str,
        port: u8,
        lent: Lent,
        expected: impl FnOnce(&BenchModel, &[u8]) -> (u8, Vec<u8>),
        found: impl Fn(bool, &Bench, &mut [u8]) -> u8,
    ) -> Option<Vec<u8>> {
        let (number, part) = expected(&self.model, lent.part());
        self.count(number);
        self.compare_written(call, port, &lent, (number, &part), found);
        (number == 0).then_some(part)
    }

    pub fn compose(
        &mut self,
        port: u8,
        process: &[u8],
        other: &[u8],
        lent: Lent,
    ) -> Option<Vec<u8>> {
        self.written(
            "compose",
            port,
            lent,
            |model, image| model.compose(port, process, other, image),
            |shift, bench, image| library::compose(shift, bench, port, process, other, image),
        )
    }

    pub fn build_response(&mut self, port: u8, process: &[u8], lent: Lent) -> Option<Vec<u8>> {
        self.written(
            "build_response",
            port,
            lent,
            |model, buffer| model.build_response(port, process, buffer),
            |shift, bench, buffer| library::build_response(shift, bench, port, process, buffer),
        )
    }

    /// The lengths of the SPDU and of the other data.
    pub fn split(&mut self, port: u8, image: &[u8]) -> (usize, usize) {
        let expected = self.model.split(port, image);
        let told = library::split(&self.bench, port, image);
        self.count(expected.0);
        self.compare("split", port, expected, (told.number, told.spdu, told.other));
        (expected.1, expected.2)
    }

    pub fn trend(&mut self, port: u8) {
        let expected = self.model.trend(port);
        let told = library::trend(&self.bench, port);
        self.count(expected.0);
        self.compare("trend", port, expected, (told.number, point_read(&told.point)));
    }

    pub fn bins(&mut self, port: u8) {
        let expected = self.model.bins(port);
        let told = library::bins(&self.bench, port);
        let found = (told.number, told.bins.map(u64::from), told.total.into(), told.frozen);
        self.count(expected.0);
        self.compare("bins", port, expected, found);
    }

    pub fn master(&mut self, port: u8) {
        let expected = self.model.master(port);
        let told = library::master(&self.bench, port);
        self.count(expected.0);
        self.compare("master", port, expected, (told.number, master_read(&told.master)));
    }

    pub fn device(&mut self, port: u8) {
        let expected = self.model.device(port);
        let told = library::device(&self.bench, port);
        self.count(expected.0);
        self.compare("device", port, expected, (told.number, device_read(&told.device)));
    }

    /// All that shows a port.
    pub fn show(&mut self, port: u8) {
        self.trend(port);
        self.bins(port);
        self.master(port);
        self.device(port);
    }
}

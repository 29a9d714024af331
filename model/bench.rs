// The bench of document 01: eight ports and the calls on them, with the answers in 01's order. A port keeps the times of its
// samples as a list, and all that is shown of them is counted from it again.

use super::block;
use super::histogram::{Earlier, Point, Samples};
use super::machines::{elapsed, DeviceModel, MasterModel, Received, Said};
use super::spdu::{Direction, Format, Values};

/// Places in the list of Table 22's elements (block.rs).
const N: usize = 6;
const P: usize = 7;
const FSP_PORT: usize = 10;
const PROT_MODE: usize = 12;
const W: usize = 13;
const M: usize = 16;
const O: usize = 21;

const NO_PORT: u8 = 8;
const NOT_RUNNING: u8 = 9;
const SPDU_LENGTH: u8 = 10;
const BUFFER: u8 = 7;
const NOTHING: u8 = 3;

/// What the FS-Master receives, then what the FS-Device does.
const DIRECTIONS: [Direction; 2] = [Direction::Response, Direction::Request];

/// What a call with a reading says; marks and releases of the FS-Master, then of the FS-Device.
#[derive(Clone, Copy, Debug, PartialEq)]
pub struct Reply {
    pub number: u8,
    pub offset: usize,
    pub marks: [u8; 2],
    pub releases: [bool; 2],
}

impl Reply {
    fn silent(number: u8, offset: usize) -> Reply {
        Reply { number, offset, marks: [NOTHING; 2], releases: [false; 2] }
    }
}

/// All that there is to see of a port.
#[derive(Clone, Debug, PartialEq)]
pub struct Shown {
    pub running: bool,
    pub parameters: [u32; 26],
    pub master: MasterModel,
    pub device: DeviceModel,
    pub bins: [u64; 32],
    pub total: u64,
    pub sum: u64,
    pub lowest: u16,
    pub highest: u16,
}

/// A port with accepted parameters.
#[derive(Clone, Debug)]
pub struct Running {
    parameters: [u32; 26],
    master: MasterModel,
    device: DeviceModel,
    /// The reading of the call in which MCount last took another value, or of the block.
    sent_at: u32,
    /// The count of the last SPDU that each end took.
    last_counts: [u8; 2],
    samples: Samples,
}

impl Running {
    fn after_block(parameters: [u32; 26], at: u32) -> Running {
        Running {
            parameters,
            master: MasterModel::after_block(at),
            device: DeviceModel::after_block(),
            sent_at: at,
            last_counts: [0; 2],
            samples: Samples::new(parameters[W] as u16, Earlier::NOTHING),
        }
    }

    fn w(&self) -> u16 {
        self.parameters[W] as u16
    }

    fn length(&self, place: usize) -> usize {
        self.parameters[place] as usize
    }

    fn format(&self, direction: Direction) -> Format {
        let length = match direction {
            Direction::Request => self.parameters[O],
            Direction::Response => self.parameters[M],
        };
        Format {
            direction,
            mode: self.parameters[PROT_MODE] as u8,
            port: self.parameters[FSP_PORT] as u8,
            length: length as u8,
        }
    }

    fn process_octets(&self, direction: Direction) -> usize {
        let format = self.format(direction);
        usize::from(format.length) - format.safety_octets()
    }

    fn safe_values_hold(&self, direction: Direction, safe: &[u8]) -> bool {
        safe.len() == self.process_octets(direction) && safe.iter().all(|&octet| octet == 0)
    }

    /// One act at the FS-Master. Where it gives MCount another value, that value is sent from now on.
    fn at_master(&mut self, at: u32, act: impl FnOnce(&mut MasterModel, u16) -> Said) -> Said {
        let (before, w) = (self.master.m_count, self.w());
        let said = act(&mut self.master, w);
        if self.master.m_count != before {
            self.sent_at = at;
        }
        said
    }

    /// "the watchdog is judged first with that reading": at both ends.
    fn judge(&mut self, at: u32) -> [Said; 2] {
        let w = self.w();
        let master = self.at_master(at, |master, w| master.quiet(w, at));
        [master, self.device.quiet(w, at)]
    }

    fn take_response(&mut self, at: u32, spdu: &[u8]) -> Said {
        let received = read(&self.format(Direction::Response), spdu);
        let since = self.sent_at;
        let said = self.at_master(at, |master, w| master.response(w, at, &received));
        if said.arrival != 0 {
            self.last_counts[0] = received.count;
        }
        // 02, item 2: T4 and T11 release, where neither SDset nor setSD_C is 1.
        let [sd_set, ..] = received.bits;
        let releases = matches!(said.arrival, 4 | 11) && !sd_set && !self.master.set_sd_c;
        let time = elapsed(at, since);
        if said.passed && releases && time <= self.w().into() {
            self.samples.list.push(time as u16);
        }
        said
    }

    fn take_request(&mut self, at: u32, spdu: &[u8]) -> Said {
        let received = read(&self.format(Direction::Request), spdu);
        let said = self.device.request(self.w(), at, &received);
        if said.arrival != 0 {
            self.last_counts[1] = received.count;
        }
        said
    }

    /// An SPDU that holds, with the count of the last one that the end took.
    fn is_last(&self, end: usize, spdu: &[u8]) -> bool {
        let received = read(&self.format(DIRECTIONS[end]), spdu);
        received.signature && received.port && received.count == self.last_counts[end]
    }

    /// What goes out by a mark that is only told.
    fn part(&self, end: usize, mark: u8, spdu: &[u8]) -> Vec<u8> {
        let format = self.format(DIRECTIONS[end]);
        match (mark, self.releases()[end]) {
            (0, true) if self.is_last(end, spdu) => format.process(spdu).to_vec(),
            (1, true) => vec![],
            (0..=2, _) => vec![0; self.process_octets(DIRECTIONS[end])],
            _ => vec![],
        }
    }

    fn releases(&self) -> [bool; 2] {
        [self.master.uses_pd, self.device.uses_pd]
    }

    /// What a call hands on for each end: zeros where it does not release; the octets of the SPDU that led to T4, T11 or T22;
    /// else nothing, as earlier octets stay released.
    fn handed_on(&self, rows: [u8; 2], spdu: &[u8]) -> [Vec<u8>; 2] {
        std::array::from_fn(|end| {
            let releases = self.releases()[end];
            match rows[end] {
                _ if !releases => vec![0; self.process_octets(DIRECTIONS[end])],
                4 | 11 | 22 => self.format(DIRECTIONS[end]).process(spdu).to_vec(),
                _ => vec![],
            }
        })
    }

    fn shown(&self) -> Shown {
        Shown {
            running: true,
            parameters: self.parameters,
            master: MasterModel { start: self.sent_at, ..self.master },
            device: self.device,
            bins: self.samples.bins(),
            total: self.samples.total(),
            sum: self.samples.sum(),
            lowest: self.samples.lowest(),
            highest: self.samples.highest(),
        }
    }
}

fn never_ran() -> Shown {
    Shown { running: false, ..Running::after_block([0; 26], 0).shown() }
}

fn read(format: &Format, spdu: &[u8]) -> Received {
    let fields = format.read(spdu);
    let [bit2, bit1, bit0] = fields.marks;
    let bits = match format.direction {
        Direction::Request => [bit1, bit0, false],
        Direction::Response => [bit2, bit1, bit0],
    };
    Received {
        count: fields.count,
        bits,
        port: fields.port_holds,
        signature: fields.signature_holds,
        zeros: fields.all_zero,
    }
}

/// The first number whose condition holds.
fn refused_by(conditions: &[(u8, bool)]) -> Result<(), u8> {
    match conditions.iter().find(|(_, holds)| *holds) {
        Some(&(number, _)) => Err(number),
        None => Ok(()),
    }
}

#[derive(Clone, Debug)]
pub struct BenchModel {
    ports: [Option<Running>; 8],
    /// How often each row of Tables 38 and 40 acted.
    pub rows: [u64; 32],
    /// How often a response that passed led to each row: those that are no samples, then those that are.
    pub passed: [[u64; 32]; 2],
    /// What the last call with a reading handed on, for the FS-Master and for the FS-Device.
    pub handed_on: [Vec<u8>; 2],
}

impl BenchModel {
    pub fn new() -> BenchModel {
        BenchModel {
            ports: [(); 8].map(|_| None),
            rows: [0; 32],
            passed: [[0; 32]; 2],
            handed_on: [vec![], vec![]],
        }
    }

    /// "For every other call: 8, 9": the port addressed.
    fn addressed(&self, port: u8) -> Result<&Running, u8> {
        match port {
            1..=8 => self.ports[usize::from(port) - 1].as_ref().ok_or(NOT_RUNNING),
            _ => Err(NO_PORT),
        }
    }

    /// A call with a reading at a port that runs: its refusals, then the watchdogs, then what arrived. `spdu` is empty where
    /// that is none.
    fn happening(
        &mut self,
        port: u8,
        at: u32,
        spdu: &[u8],
        refusals: impl FnOnce(&Running) -> Result<(), u8>,
        arrival: impl FnOnce(&mut Running, &mut [Said; 2]),
    ) -> Reply {
        self.handed_on = [vec![], vec![]];
        if let Err(number) = self.addressed(port).and_then(refusals) {
            return Reply::silent(number, 0);
        }
        let running = self.ports[usize::from(port) - 1].as_mut().unwrap();
        let samples = running.samples.list.len();
        let mut said = running.judge(at);
        let watchdogs = said.map(|said| said.watchdog);
        arrival(running, &mut said);
        if said[0].passed {
            let counts = running.samples.list.len() > samples;
            self.passed[usize::from(counts)][usize::from(said[0].arrival)] += 1;
        }
        self.handed_on = running.handed_on(said.map(|said| said.arrival), spdu);
        for row in watchdogs.into_iter().chain(said.map(|said| said.arrival)) {
            self.rows[usize::from(row)] += 1;
        }
        Reply {
            number: 0,
            offset: 0,
            marks: said.map(|said| said.mark),
            releases: running.releases(),
        }
    }

    pub fn set_parameters(&mut self, port: u8, at: u32, octets: &[u8]) -> Reply {
        self.handed_on = [vec![], vec![]];
        let answer = block::judge(octets, port);
        if answer.number == 0 {
            let running = Running::after_block(answer.parameters, at);
            self.ports[usize::from(port) - 1] = Some(running);
        }
        Reply::silent(answer.number, answer.offset)
    }

    pub fn receive_response(&mut self, port: u8, at: u32, spdu: &[u8], safe: &[u8]) -> Reply {
        self.happening(
            port,
            at,
            spdu,
            |running| {
                refused_by(&[
                    (SPDU_LENGTH, spdu.len() != running.length(M)),
                    (BUFFER, !running.safe_values_hold(Direction::Response, safe)),
                ])
            },
            |running, said| said[0] = running.take_response(at, spdu),
        )
    }

    pub fn receive_request(&mut self, port: u8, at: u32, spdu: &[u8], safe: &[u8]) -> Reply {
        self.happening(
            port,
            at,
            spdu,
            |running| {
                refused_by(&[
                    (SPDU_LENGTH, spdu.len() != running.length(O)),
                    (BUFFER, !running.safe_values_hold(Direction::Request, safe)),
                ])
            },
            |running, said| said[1] = running.take_request(at, spdu),
        )
    }

    pub fn clock(&mut self, port: u8, at: u32, safe_in: &[u8], safe_out: &[u8]) -> Reply {
        self.happening(
            port,
            at,
            &[],
            |running| {
                refused_by(&[
                    (BUFFER, !running.safe_values_hold(Direction::Response, safe_in)),
                    (BUFFER, !running.safe_values_hold(Direction::Request, safe_out)),
                ])
            },
            |_, _| (),
        )
    }

    /// The signals are setSD_C and ChFAck_C.
    pub fn operator(&mut self, port: u8, at: u32, signals: [bool; 2], safe: &[u8]) -> Reply {
        self.happening(
            port,
            at,
            &[],
            |running| refused_by(&[(BUFFER, !running.safe_values_hold(Direction::Response, safe))]),
            |running, said| {
                said[0] = running
                    .at_master(at, |master, w| master.operator(w, at, signals[0], signals[1]))
            },
        )
    }

    /// The answer's number, and what the image holds afterwards: the SPDU first, the other data behind it.
    pub fn compose(&self, port: u8, process: &[u8], other: &[u8], image: &[u8]) -> (u8, Vec<u8>) {
        let composed = self.addressed(port).and_then(|running| {
            let (o, p) = (running.length(O), running.length(P));
            let process_octets = running.process_octets(Direction::Request);
            refused_by(&[
                (BUFFER, process.len() != process_octets),
                (BUFFER, other.len() != p),
                (BUFFER, image.len() != p + o),
            ])?;
            let MasterModel { m_count: count, set_sd, request, .. } = running.master;
            let values = Values { responded: true, count, marks: [false, set_sd, request] };
            let (_, spdu) = running.format(Direction::Request).build(&values, process, &image[..o]);
            Ok([&spdu, other].concat())
        });
        built(composed, image)
    }

    /// The answer's number, and what the buffer holds afterwards.
    pub fn build_response(&self, port: u8, process: &[u8], buffer: &[u8]) -> (u8, Vec<u8>) {
        let response = self.addressed(port).and_then(|running| {
            let process_octets = running.process_octets(Direction::Response);
            refused_by(&[
                (BUFFER, process.len() != process_octets),
                (BUFFER, buffer.len() != running.length(M)),
            ])?;
            let device = running.device;
            let values = Values {
                responded: device.responded,
                count: device.d_count_i,
                marks: [device.sd_set, device.d_comm_err, device.d_timeout],
            };
            Ok(running.format(Direction::Response).build(&values, process, buffer).1)
        });
        built(response, buffer)
    }

    /// The answer's number, and the lengths of the two parts.
    pub fn split(&self, port: u8, image: &[u8]) -> (u8, usize, usize) {
        let parts = self.addressed(port).and_then(|running| {
            let (m, n) = (running.length(M), running.length(N));
            refused_by(&[(BUFFER, image.len() != n + m)])?;
            Ok((m, n))
        });
        match parts {
            Ok((m, n)) => (0, m, n),
            Err(number) => (number, 0, 0),
        }
    }

    /// Octets that a call handed on, copied to the front of a buffer: the answer's number, how many octets, and what the buffer
    /// holds afterwards.
    pub fn copied(&self, port: u8, octets: &[u8], buffer: &[u8]) -> (u8, usize, Vec<u8>) {
        let copied = self.addressed(port).and_then(|_| {
            refused_by(&[(BUFFER, buffer.len() < octets.len())])?;
            Ok([octets, &buffer[octets.len()..]].concat())
        });
        let count = if copied.is_ok() { octets.len() } else { 0 };
        let (number, buffer) = built(copied, buffer);
        (number, count, buffer)
    }

    /// The same by a mark that is only told, of an SPDU and safe values.
    pub fn hand_on(
        &self,
        port: u8,
        end: usize,
        mark: u8,
        lent: [&[u8]; 2],
        buffer: &[u8],
    ) -> (u8, usize, Vec<u8>) {
        let [spdu, safe] = lent;
        let part = self.addressed(port).and_then(|running| {
            let length = running.format(DIRECTIONS[end]).length;
            refused_by(&[
                (SPDU_LENGTH, mark == 0 && spdu.len() != usize::from(length)),
                (BUFFER, !running.safe_values_hold(DIRECTIONS[end], safe)),
            ])?;
            Ok(running.part(end, mark, spdu))
        });
        match part {
            Ok(part) => self.copied(port, &part, buffer),
            Err(number) => (number, 0, buffer.to_vec()),
        }
    }

    pub fn trend(&self, port: u8) -> (u8, Point) {
        match self.addressed(port) {
            Ok(running) => {
                let (number, point) = running.samples.trend();
                (
                    number,
                    Point { mean: mean(running.samples.sum(), running.samples.total()), ..point },
                )
            }
            Err(number) => (number, Point { mean: 0, lowest: 0, highest: 0 }),
        }
    }

    /// The answer's number, the bins, the total and the frozen mark.
    pub fn bins(&self, port: u8) -> (u8, [u64; 32], u64, bool) {
        match self.addressed(port) {
            Ok(running) => {
                let samples = &running.samples;
                (0, samples.bins(), samples.total(), samples.frozen())
            }
            Err(number) => (number, [0; 32], 0, false),
        }
    }

    pub fn master(&self, port: u8) -> (u8, MasterModel) {
        let (number, shown) = self.seen(port);
        (number, shown.master)
    }

    pub fn device(&self, port: u8) -> (u8, DeviceModel) {
        let (number, shown) = self.seen(port);
        (number, shown.device)
    }

    /// The answer's number to a call that only shows, and the port shown.
    fn seen(&self, port: u8) -> (u8, Shown) {
        match self.addressed(port) {
            Ok(running) => (0, running.shown()),
            Err(number) => (number, never_ran()),
        }
    }

    pub fn shown(&self, port: u8) -> Shown {
        self.seen(port).1
    }

    /// For those who have to build what they send: the SPDU's format at a port that runs.
    pub fn format(&self, port: u8, direction: Direction) -> Option<Format> {
        self.addressed(port).ok().map(|running| running.format(direction))
    }

    /// Likewise the octets of other data: n beside a response, p beside a request.
    pub fn other_octets(&self, port: u8, direction: Direction) -> Option<usize> {
        let place = match direction {
            Direction::Request => P,
            Direction::Response => N,
        };
        self.addressed(port).ok().map(|running| running.length(place))
    }

    /// The times of the port's samples since its last block.
    pub fn samples(&self, port: u8) -> &[u16] {
        self.addressed(port).map_or(&[], |running| &running.samples.list)
    }

    /// The count that the port's FS-Master sends; 0 where it does not run.
    pub fn m_count(&self, port: u8) -> u8 {
        self.addressed(port).map_or(0, |running| running.master.m_count)
    }

    /// A port that runs no more.
    pub fn stop(&mut self, port: u8) {
        self.ports[usize::from(port) - 1] = None;
    }

    /// A port that has run for long: what came before its list of samples.
    pub fn put_earlier(&mut self, port: u8, earlier: Earlier) {
        let running = self.ports[usize::from(port) - 1].as_mut().unwrap();
        running.samples = Samples::new(running.w(), earlier);
    }
}

/// "A refusal .. writes no buffer".
fn built(octets: Result<Vec<u8>, u8>, buffer: &[u8]) -> (u8, Vec<u8>) {
    match octets {
        Ok(octets) => (0, octets),
        Err(number) => (number, buffer.to_vec()),
    }
}

/// The f64 nearest to a quotient, an even one of two that are as near, as a pattern: by whole numbers. Digits of 53 bits are
/// cut at 2^-places, and what is left decides on one more.
fn mean(sum: u64, total: u64) -> u64 {
    if sum == 0 {
        return 0;
    }
    let (sum, total) = (u128::from(sum), u128::from(total));
    let places = (0..=90).find(|&places| (sum << places) / total >= 1 << 52).unwrap();
    let (digits, rest) = ((sum << places) / total, (sum << places) % total);
    let more = 2 * rest > total || 2 * rest == total && digits % 2 == 1;
    // The leading digit adds one to the exponent's field, which therefore starts one lower.
    let exponent = 1074 - places as u64;
    (exponent << 52) + digits as u64 + u64::from(more)
}

// The library's bench of eight ports (document 01) against a model of it: random histories of every call, and runs whose course
// is known; and that no call reads what has a wrong length. A call that takes `shift` is made under each engine.
// Argument: the seed of the random inputs, or none.

mod as_model;
mod bench_pair;
mod bench_runs;
mod comparisons;
mod engines;
mod good_blocks;
#[path = "../bindings/rust/library.rs"]
mod library;
#[path = "../model/mod.rs"]
mod model;
mod random;
mod unread;

use bench_pair::{Lent, Pair};
use bench_runs::Runs;
use good_blocks::{good, Block, KINDS, VIOLATIONS};
use model::block::{put, sign, LENGTH};
use model::spdu::{Direction, Format, Values};
use random::Random;

const HISTORIES: usize = 220;
const CALLS: usize = 2000;
const ROWS: [usize; 13] = [4, 7, 8, 11, 12, 13, 14, 22, 25, 28, 29, 30, 31];

/// What stands outside a port: its clock and its watchdog time, the next call of its cycle, and for each direction the SPDU
/// sent last and the one before it.
#[derive(Clone, Default)]
struct Line {
    at: u32,
    w: u16,
    next: usize,
    requests: [Vec<u8>; 2],
    responses: [Vec<u8>; 2],
}

impl Line {
    fn sent(&mut self, direction: Direction) -> &mut [Vec<u8>; 2] {
        match direction {
            Direction::Request => &mut self.requests,
            Direction::Response => &mut self.responses,
        }
    }

    fn send(&mut self, direction: Direction, spdu: Vec<u8>) {
        let [last, before] = self.sent(direction);
        *before = std::mem::replace(last, spdu);
    }
}

/// What goes one way at a port. At one that does not run, anything.
struct Way {
    format: Format,
    length: usize,
    process: usize,
    other: usize,
}

struct Histories<'a> {
    pair: &'a mut Pair,
    random: &'a mut Random,
    /// The first is for the numbers that no port has.
    lines: [Line; 9],
}

impl Histories<'_> {
    fn run(&mut self) {
        for _ in 0..HISTORIES {
            self.pair.start();
            self.lines = Default::default();
            for _ in 0..CALLS {
                self.any_call();
            }
        }
    }

    fn any_call(&mut self) {
        let port = self.port_number();
        let running = self.pair.model.format(port, Direction::Request).is_some();
        if !running && self.one_in(3) {
            return self.block(port);
        }
        match self.random.below(200) {
            0 => self.block(port),
            1..=2 => self.bad_block(port),
            3..=8 => self.clock(port),
            9..=20 => self.operator(port),
            21..=22 => self.compose(port),
            23..=24 => self.build_response(port),
            25..=27 => self.receive(port, Direction::Request),
            28..=30 => self.receive(port, Direction::Response),
            31..=36 => self.split(port),
            37..=40 => self.pair.trend(port),
            41..=44 => self.pair.bins(port),
            45..=47 => self.pair.master(port),
            48..=50 => self.pair.device(port),
            _ => self.cycle(port),
        }
    }

    /// The next call of the port's cycle.
    fn cycle(&mut self, port: u8) {
        let line = self.line(port);
        let next = line.next;
        line.next = (next + 1) % 4;
        match next {
            0 => self.compose(port),
            1 => self.receive(port, Direction::Request),
            2 => self.build_response(port),
            _ => self.receive(port, Direction::Response),
        }
    }

    fn one_in(&mut self, n: usize) -> bool {
        self.random.below(n) == 0
    }

    fn line(&mut self, port: u8) -> &mut Line {
        let place = if port > 8 { 0 } else { port.into() };
        &mut self.lines[place]
    }

    fn port_number(&mut self) -> u8 {
        match self.random.below(80) {
            0 => 0,
            1 => 9 + self.random.below(247) as u8,
            2 => [9, 16, 128, 255][self.random.below(4)],
            _ => 1 + self.random.below(8) as u8,
        }
    }

    // Parameter blocks.

    /// Good, or every third time not.
    fn block(&mut self, port: u8) {
        if self.one_in(3) {
            return self.bad_block(port);
        }
        if self.random.flag() {
            self.line(port).at = self.first_reading();
        }
        let block = self.good_block(port);
        let at = self.line(port).at;
        if self.pair.set_parameters(port, at, &block).number == 0 {
            let line = self.line(port);
            line.w = u16::from_be_bytes([block[27], block[28]]);
            line.next = 0;
        }
    }

    fn bad_block(&mut self, port: u8) {
        let at = self.line(port).at;
        let octets = self.bad_octets(port);
        self.pair.set_parameters(port, at, &octets);
    }

    /// Near the clock's wrap, near its start, or anywhere.
    fn first_reading(&mut self) -> u32 {
        match self.random.below(4) {
            0 => self.random.number() as u32,
            1 => self.random.below(200) as u32,
            _ => 0u32.wrapping_sub(self.random.below(2000) as u32),
        }
    }

    fn good_block(&mut self, port: u8) -> Block {
        let w = match self.random.below(10) {
            0 => 1,
            1 => 31,
            2 => u16::MAX,
            3 => self.random.number() as u16 | 1,
            _ => 4 + self.random.below(120) as u16,
        };
        block_for(self.random, port, w)
    }

    /// Of another size, with another port's number, with a wrong signature, one bit damaged, or with one or two rules broken.
    fn bad_octets(&mut self, port: u8) -> Vec<u8> {
        let mut block = self.good_block(port);
        match self.random.below(6) {
            0 => {
                let size = [0, 1, LENGTH - 1, LENGTH + 1, 100][self.random.below(5)];
                let mut octets = block.to_vec();
                octets.resize(size, 0);
                return octets;
            }
            1 => {
                block[22] = 1 + (port + self.random.below(7) as u8) % 8;
                sign(&mut block);
            }
            2 => block[[23, 29, 35][self.random.below(3)]] ^= 1 << self.random.below(8),
            3 => block[self.random.below(LENGTH)] ^= 1 << self.random.below(8),
            _ => {
                for _ in 0..1 + self.random.below(2) {
                    let (_, _, violate) = VIOLATIONS[self.random.below(VIOLATIONS.len())];
                    violate(self.random, &mut block);
                }
                if self.random.flag() {
                    sign(&mut block);
                }
            }
        }
        block.to_vec()
    }

    // What happens at a port.

    /// Small steps; to the watchdog's end, just past it, back, and any.
    fn pass_time(&mut self, port: u8) -> u32 {
        let w = u32::from(self.line(port).w);
        let step = match self.random.below(150) {
            0 => w,
            1 => w + 1,
            2 => w + self.random.below(4) as u32,
            3 => self.random.number() as u32,
            4 => 0u32.wrapping_sub(1 + self.random.below(5) as u32),
            5..=30 => 0,
            _ => self.random.below(1 + w as usize / 3) as u32,
        };
        let line = self.line(port);
        line.at = line.at.wrapping_add(step);
        line.at
    }

    fn clock(&mut self, port: u8) {
        let at = self.pass_time(port);
        let safe_in = self.safe(port, Direction::Response);
        let safe_out = self.safe(port, Direction::Request);
        self.pair.clock(port, at, &safe_in, &safe_out);
    }

    fn operator(&mut self, port: u8) {
        let at = self.pass_time(port);
        let signals = [self.one_in(8), self.random.flag()];
        let safe = self.safe(port, Direction::Response);
        self.pair.operator(port, at, signals, &safe);
    }

    fn receive(&mut self, port: u8, direction: Direction) {
        let at = self.pass_time(port);
        let spdu = self.arriving(port, direction);
        let safe = self.safe(port, direction);
        match direction {
            Direction::Request => self.pair.receive_request(port, at, &spdu, &safe),
            Direction::Response => self.pair.receive_response(port, at, &spdu, &safe),
        };
    }

    /// Mostly zeros of the right length.
    fn safe(&mut self, port: u8, direction: Direction) -> Vec<u8> {
        let right = self.way(port, direction).process;
        let mut zeros = vec![0; self.about(right)];
        if !zeros.is_empty() && self.one_in(60) {
            let place = self.random.below(zeros.len());
            zeros[place] = 1 << self.random.below(8);
        }
        zeros
    }

    /// Mostly what was sent last; else the one before it, one bit damaged, zeros, another length, or what nobody sent.
    fn arriving(&mut self, port: u8, direction: Direction) -> Vec<u8> {
        let length = self.way(port, direction).length;
        let [last, before] = self.line(port).sent(direction).clone();
        match self.random.below(120) {
            0..=2 => before,
            3..=5 => self.damaged(last),
            6 => vec![0; length],
            7 => vec![0; self.random.below(40)],
            8 => {
                let size = self.random.below(40);
                self.random.octets(size)
            }
            9 => self.random.octets(length),
            10..=14 => self.forged(port, direction),
            _ => last,
        }
    }

    fn damaged(&mut self, mut spdu: Vec<u8>) -> Vec<u8> {
        if !spdu.is_empty() {
            let bit = self.random.below(8 * spdu.len());
            spdu[bit / 8] ^= 0x80 >> bit % 8;
        }
        spdu
    }

    /// Signed, mostly with the count that is due, and with any marks.
    fn forged(&mut self, port: u8, direction: Direction) -> Vec<u8> {
        let Way { format, length, process, .. } = self.way(port, direction);
        let shown = self.pair.model.shown(port);
        let due = match direction {
            Direction::Request => shown.device.m_count % 7 + 1,
            Direction::Response => 7 - shown.master.m_count,
        };
        let count = if self.one_in(3) { self.random.below(8) as u8 } else { due };
        let marks = [self.one_in(4), self.one_in(4), self.one_in(4)];
        let values = Values { responded: true, count, marks };
        let named = if self.one_in(4) { self.random.octet() } else { format.port };
        let process = self.random.octets(process);
        Format { port: named, ..format }.build(&values, &process, &vec![0; length]).1
    }

    // Outgoing and incoming octets.

    fn way(&mut self, port: u8, direction: Direction) -> Way {
        let model = &self.pair.model;
        let any = Format { direction, mode: 2, port, length: 9 };
        let format = model.format(port, direction).unwrap_or(any);
        let other = model.other_octets(port, direction).unwrap_or(4);
        let length = usize::from(format.length);
        Way { format, length, process: length - format.safety_octets(), other }
    }

    /// Mostly the same; at times one less or more, or any up to 40.
    fn about(&mut self, size: usize) -> usize {
        match self.random.below(150) {
            0 => size.saturating_sub(1),
            1 => size + 1,
            2 => self.random.below(41),
            _ => size,
        }
    }

    fn octets_about(&mut self, size: usize) -> Vec<u8> {
        let size = self.about(size);
        self.random.octets(size)
    }

    fn lent_about(&mut self, size: usize) -> Lent {
        let size = self.about(size);
        Lent::new(self.random, size)
    }

    fn compose(&mut self, port: u8) {
        let Way { length, process, other, .. } = self.way(port, Direction::Request);
        let lent = self.lent_about(length + other);
        let (process, other) = (self.octets_about(process), self.octets_about(other));
        if let Some(image) = self.pair.compose(port, &process, &other, lent) {
            self.line(port).send(Direction::Request, image[..length].to_vec());
        }
    }

    fn build_response(&mut self, port: u8) {
        let Way { length, process, .. } = self.way(port, Direction::Response);
        let lent = self.lent_about(length);
        let process = self.octets_about(process);
        if let Some(spdu) = self.pair.build_response(port, &process, lent) {
            self.line(port).send(Direction::Response, spdu);
        }
    }

    fn split(&mut self, port: u8) {
        let Way { length, other, .. } = self.way(port, Direction::Response);
        let image = self.octets_about(length + other);
        self.pair.split(port, &image);
    }
}

/// A good block with a watchdog time. One for a port that does not exist names some port.
pub fn block_for(random: &mut Random, port: u8, w: u16) -> Block {
    let kind = KINDS[random.below(KINDS.len())];
    let mut block = good(random, kind);
    put(&mut block, 27, 2, w.into());
    block[22] = port.max(1);
    sign(&mut block);
    block
}

fn main() {
    let mut pair = Pair::new();
    let mut random = Random::from_arguments("bench");
    Runs { pair: &mut pair, random: &mut random, port: 1, at: 0 }.run();
    Histories { pair: &mut pair, random: &mut random, lines: Default::default() }.run();
    unread::run(&mut pair.comparisons, &mut random);
    finish(pair);
}

/// Prints how often each answer was given, each row acted and a response that passed was a sample or none, by its row. Each has
/// to be.
fn finish(mut pair: Pair) {
    pair.take_rows();
    println!("bench: {} calls", pair.calls);
    for (number, count) in pair.answers.into_iter().enumerate() {
        println!("bench: answer {number} given {count} times");
        pair.comparisons.compare(true, count > 0, || format!("answer {number} was given"));
    }
    for number in [0, 7, 8, 9, 10] {
        let count = pair.copies[number];
        println!("bench: {number} answered {count} times to octets handed on");
        pair.comparisons.compare(true, count > 0, || format!("answer {number} to octets"));
    }
    for row in ROWS {
        let count = pair.rows[row];
        println!("bench: T{row} acted {count} times");
        pair.comparisons.compare(true, count > 0, || format!("T{row} acted"));
    }
    for (is_sample, rows) in [(false, &[4, 7, 11, 12, 13][..]), (true, &[4, 11])] {
        let samples = if is_sample { "samples" } else { "no samples" };
        for &row in rows {
            let count = pair.passed[usize::from(is_sample)][row];
            println!("bench: {count} responses passed by T{row} and are {samples}");
            pair.comparisons.compare(true, count > 0, || format!("T{row}: {samples}"));
        }
    }
    pair.comparisons.finish();
}

// Random sessions (document 01, "The session program"), and ways to damage one.
#![allow(dead_code)]

use crate::good_blocks::{good, Block, KINDS, VIOLATIONS};
use crate::lines::ends::Ends;
use crate::model::block::{put, sign, LENGTH};
use crate::model::session::{first_record, HEAD, MARK};
use crate::model::spdu::{Direction, Format, Values};
use crate::random::Random;

/// A session of so many records, most of them taken, at two ports or at all. Counts follow those of the model.
pub fn session(random: &mut Random, records: usize) -> Vec<u8> {
    let ports = match random.below(8) {
        0 => (1..=8).collect(),
        _ => vec![1 + random.below(8) as u8, 1 + random.below(8) as u8],
    };
    let mut writer = Writer { random, ports, ends: Ends::new(), octets: Vec::new() };
    for _ in 0..records {
        writer.any_record();
    }
    writer.octets
}

/// A session that a program can't hold in one chunk, with more text than octets of it: most records are refused.
pub fn long_session(random: &mut Random) -> Vec<u8> {
    let mut octets = session(random, 40);
    for _ in 0..random.below(30000) {
        let kind = 1 + random.below(4) as u8;
        let port = random.below(10) as u8;
        let at = random.number() as u32;
        let size = if kind <= 2 { random.below(3) } else { usize::from(kind) - 3 };
        octets.extend(record(kind, port, at, &[0, 0][..size]));
    }
    octets
}

/// A session of the longest records, longer than a program's buffer need be: behind some that set ports up, parameter blocks and SPDUs.
pub fn full_records(random: &mut Random) -> Vec<u8> {
    let mut octets = session(random, 40);
    for _ in 0..300 {
        let kind = 1 + random.below(2) as u8;
        let port = 1 + random.below(8) as u8;
        let at = random.number() as u32;
        octets.extend(record(kind, port, at, &random.octets(255)));
    }
    octets
}

struct Writer<'a> {
    random: &'a mut Random,
    /// The ports that most records are for.
    ports: Vec<u8>,
    ends: Ends,
    octets: Vec<u8>,
}

impl Writer<'_> {
    fn record(&mut self, kind: u8, port: u8, at: u32, octets: &[u8]) {
        let start = self.octets.len();
        self.octets.extend(record(kind, port, at, octets));
        self.ends.take_all(&self.octets[start..]);
    }

    fn any_record(&mut self) {
        let port = match self.random.below(60) {
            0 => self.random.octet(),
            1..=4 => 1 + self.random.below(8) as u8,
            _ => self.ports[self.random.below(self.ports.len())],
        };
        let at = self.reading(port);
        let running = self.format(port).is_some();
        match self.random.below(40) {
            0 => self.block(port, at),
            _ if !running && self.random.flag() => self.block(port, at),
            1..=2 => self.bad_block(port, at),
            3..=4 => self.record(3, port, at, &[]),
            5..=9 => {
                let signals = self.random.below(4) as u8;
                self.record(4, port, at, &[signals]);
            }
            _ => self.response(port, at),
        }
    }

    fn format(&self, port: u8) -> Option<Format> {
        self.ends.bench().format(port, Direction::Response)
    }

    /// After the port's last reading, mostly within its watchdog time; at times just past it, back, or anywhere.
    fn reading(&mut self, port: u8) -> u32 {
        let w = self.ends.bench().shown(port).parameters[13];
        let step = match self.random.below(60) {
            0 => w,
            1 => w + 1,
            2 => 0u32.wrapping_sub(1 + self.random.below(5) as u32),
            3 => self.random.number() as u32,
            _ => self.random.below(1 + w as usize / 2) as u32,
        };
        self.ends.reading(port).wrapping_add(step)
    }

    fn block(&mut self, port: u8, at: u32) {
        let block = self.good_block(port);
        self.record(1, port, at, &block);
    }

    fn good_block(&mut self, port: u8) -> Block {
        let kind = KINDS[self.random.below(KINDS.len())];
        let mut block = good(self.random, kind);
        let w = [1, 20, 100, 65535, 1 + self.random.below(65535) as u32][self.random.below(5)];
        put(&mut block, 27, 2, w);
        block[22] = port.max(1);
        sign(&mut block);
        block
    }

    /// Of another size, with one rule broken, with another port's number or port mode, or one bit damaged.
    fn bad_block(&mut self, port: u8, at: u32) {
        let mut block = self.good_block(port);
        let mut size = LENGTH;
        match self.random.below(5) {
            0 => size = [0, 1, LENGTH - 1, LENGTH + 1, 255][self.random.below(5)],
            1 => {
                let (_, _, violate) = VIOLATIONS[self.random.below(VIOLATIONS.len())];
                violate(self.random, &mut block);
                sign(&mut block);
            }
            2 => {
                block[22] = 1 + (port % 8);
                sign(&mut block);
            }
            3 => block[2] = [0, 4, 5, 48, 51, 52, 97, 255][self.random.below(8)],
            _ => block[self.random.below(LENGTH)] ^= 1 << self.random.below(8),
        }
        let mut octets = block.to_vec();
        octets.resize(size, 0);
        self.record(1, port, at, &octets);
    }

    /// Mostly the FS-Device's answer; else the last one again, one bit damaged, zeros, another length, any octets, or one that
    /// the FS-Device did not build.
    fn response(&mut self, port: u8, at: u32) {
        let length = self.format(port).map_or(7, |format| format.length).into();
        let spdu = match self.random.below(60) {
            0 => self.ends.last_spdu(port).to_vec(),
            1..=3 => {
                let mut spdu = self.answer(port, at);
                flip(self.random, &mut spdu);
                spdu
            }
            4 => vec![0; length],
            5 => {
                let size = self.random.below(40);
                self.random.octets(size)
            }
            6 => self.random.octets(length),
            7..=9 => self.forged(port, at),
            10..=11 => self.zero_computed(port, at),
            _ => self.answer(port, at),
        };
        self.record(2, port, at, &spdu);
    }

    /// The answer with such process octets that the computed signature is 0, which is sent as 1; as 0 every other time.
    fn zero_computed(&mut self, port: u8, at: u32) -> Vec<u8> {
        let mut spdu = self.answer(port, at);
        let solved = self.format(port).and_then(|format| {
            let mut contents = format.contents(&spdu).to_vec();
            make_zero(&format, &mut contents).then(|| format.signed(&contents))
        });
        if let Some(signed) = solved {
            spdu = signed;
            let last = spdu.len() - 1;
            spdu[last] ^= u8::from(self.random.flag());
        }
        spdu
    }

    fn answer(&mut self, port: u8, at: u32) -> Vec<u8> {
        let process = self
            .format(port)
            .map_or(0, |format| usize::from(format.length) - format.safety_octets());
        let process = self.random.octets(process);
        self.ends.response(port, at, Some(process)).unwrap_or_default()
    }

    /// Signed, with any count, marks and port number.
    fn forged(&mut self, port: u8, at: u32) -> Vec<u8> {
        let spdu = self.answer(port, at);
        let format = match self.format(port) {
            Some(format) => format,
            None => return spdu,
        };
        let count = if self.random.flag() {
            7 - self.ends.bench().m_count(port)
        } else {
            self.random.below(8) as u8
        };
        let marks = [0; 3].map(|_| self.random.below(3) == 0);
        let named = if self.random.below(4) == 0 { self.random.octet() } else { port };
        let values = Values { responded: true, count, marks };
        let process = &spdu[..spdu.len() - format.safety_octets()];
        Format { port: named, ..format }.build(&values, process, &spdu).1
    }
}

/// Changes the first process octets, as many as the signature has, so that it is computed as 0. It is a sum of what each bit adds to it,
/// so that the bits to flip are found one by one, each clearing its highest power. Whether there are so many process octets.
fn make_zero(format: &Format, contents: &mut [u8]) -> bool {
    let width = format.generator().width;
    if contents.len() < width / 8 + 2 {
        return false;
    }
    let start = format.computed(contents);
    // For each highest power: the bits to flip, and what they add.
    let mut steps: [Option<(u32, u32)>; 32] = [None; 32];
    for bit in 0..width {
        contents[bit / 8] ^= 0x80 >> bit % 8;
        let added = format.computed(contents) ^ start;
        contents[bit / 8] ^= 0x80 >> bit % 8;
        let (flips, rest) = reduced(&steps, 1 << bit, added);
        if rest != 0 {
            steps[highest(rest)] = Some((flips, rest));
        }
    }
    let (flips, rest) = reduced(&steps, 0, start);
    for bit in (0..width).filter(|bit| flips >> bit & 1 == 1) {
        contents[bit / 8] ^= 0x80 >> bit % 8;
    }
    rest == 0
}

/// Adds steps until there is none for the highest power of what is left.
fn reduced(steps: &[Option<(u32, u32)>; 32], mut flips: u32, mut rest: u32) -> (u32, u32) {
    while rest != 0 {
        match steps[highest(rest)] {
            Some((more, added)) => {
                flips ^= more;
                rest ^= added;
            }
            None => break,
        }
    }
    (flips, rest)
}

fn highest(number: u32) -> usize {
    31 - number.leading_zeros() as usize
}

pub fn record(kind: u8, port: u8, at: u32, octets: &[u8]) -> Vec<u8> {
    let head = [&MARK[..], &[kind, port], &at.to_be_bytes(), &[octets.len() as u8]].concat();
    [&head, octets].concat()
}

fn flip(random: &mut Random, octets: &mut [u8]) {
    if !octets.is_empty() {
        octets[random.below(octets.len())] ^= 1 << random.below(8);
    }
}

/// One change: of a bit, an octet or a record's head; octets put in or taken out; records left out, repeated or exchanged; an end
/// that is missing or does not belong there.
pub fn damage(random: &mut Random, session: &mut Vec<u8>) {
    match random.below(11) {
        0 => flip(random, session),
        1 => replace_octet(random, session),
        2 => change_head(random, session),
        3 => {
            let place = random.below(session.len() + 1);
            let count = 1 + random.below(12);
            let octets = random.octets(count);
            session.splice(place..place, octets);
        }
        4 => {
            let place = random.below(session.len() + 1);
            let end = session.len().min(place + 1 + random.below(12));
            session.drain(place..end);
        }
        5..=7 => change_records(random, session),
        8 => session.truncate(random.below(session.len() + 1)),
        9 => {
            // One bit of an operator octet, or two.
            let octet = 1 << random.below(8) | 1 << random.below(8);
            let place = some_start(random, session);
            session.splice(place..place, record(4, 1 + random.below(8) as u8, 0, &[octet]));
        }
        _ => {
            let size = random.below(20);
            let octets = random.octets(size);
            let kind = random.below(7) as u8;
            let (port, at) = (random.octet(), random.number() as u32);
            session.extend(record(kind, port, at, &octets));
        }
    }
}

/// Adds one time to all readings, so that one of them is 0 and the clock has wrapped before it.
pub fn move_clock(random: &mut Random, session: &mut [u8]) {
    let mut starts = starts(session);
    starts.pop();
    if starts.is_empty() {
        return;
    }
    let clock = |start: usize| start + 4..start + 8;
    let reading = |session: &[u8], start| {
        u32::from_be_bytes(session[clock(start)].try_into().expect("four octets"))
    };
    let zero = reading(session, starts[random.below(starts.len())]);
    for start in starts {
        let moved = reading(session, start).wrapping_sub(zero);
        session[clock(start)].copy_from_slice(&moved.to_be_bytes());
    }
}

fn replace_octet(random: &mut Random, session: &mut [u8]) {
    if !session.is_empty() {
        session[random.below(session.len())] =
            [0, 1, 0x53, 0x4C, 255, random.octet()][random.below(6)];
    }
}

/// Where each whole record begins, and where the last one ends.
fn starts(session: &[u8]) -> Vec<usize> {
    let mut starts = vec![0];
    while let Some(record) = first_record(&session[starts[starts.len() - 1]..]) {
        starts.push(starts[starts.len() - 1] + record.size());
    }
    starts
}

fn some_start(random: &mut Random, session: &[u8]) -> usize {
    let starts = starts(session);
    starts[random.below(starts.len())]
}

fn change_head(random: &mut Random, session: &mut [u8]) {
    let place = some_start(random, session) + random.below(HEAD);
    if place < session.len() {
        session[place] = [0, 1, 2, 3, 4, 5, 9, random.octet()][random.below(8)];
    }
}

fn change_records(random: &mut Random, session: &mut Vec<u8>) {
    let starts = starts(session);
    let records = starts.len() - 1;
    if records == 0 {
        return;
    }
    let [a, b] = [random.below(records), random.below(records)];
    let octets = |place: usize| session[starts[place]..starts[place + 1]].to_vec();
    let (first, second) = (octets(a.min(b)), octets(a.max(b)));
    let (low, high) = (starts[a.min(b)], starts[a.max(b)]);
    match random.below(3) {
        0 => {
            session.drain(high..high + second.len());
        }
        1 => {
            session.splice(high..high, first);
        }
        _ if low != high => {
            session.splice(high..high + second.len(), first.clone());
            session.splice(low..low + first.len(), second);
        }
        _ => (),
    }
}

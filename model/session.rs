// The session program of document 01 over the model of the bench: from a session's octets to the text that `portbench` prints.
// The records are cut out of the whole session first, and called one after the other then.

use super::bench::{BenchModel, Reply};
use super::spdu::Direction;
use std::ops::Range;

pub const MARK: [u8; 2] = [0x53, 0x4C];
/// Mark, kind, port, clock, length.
pub const HEAD: usize = 9;

pub const PARAMETERS: u8 = 1;
pub const SPDU: u8 = 2;
pub const CLOCK: u8 = 3;
pub const OPERATOR: u8 = 4;

pub const RECORD: u8 = 13;

/// The place of FSP_WatchdogTime in the list of Table 22's elements (block.rs).
const W: usize = 13;

/// A whole, well-formed record.
#[derive(Clone, Debug, PartialEq, Eq)]
pub struct Record {
    pub kind: u8,
    pub port: u8,
    pub at: u32,
    pub octets: Vec<u8>,
}

impl Record {
    pub fn size(&self) -> usize {
        HEAD + self.octets.len()
    }
}

/// What a session consists of: whole records, and the octets that follow the last of them. Where there are any, they begin with
/// a record that answers 13, and are not read any further.
pub struct Parts<'a> {
    pub records: Vec<Record>,
    pub rest: &'a [u8],
}

pub fn parts(session: &[u8]) -> Parts<'_> {
    let mut parts = Parts { records: Vec::new(), rest: session };
    while let Some(record) = first_record(parts.rest) {
        parts.rest = &parts.rest[record.size()..];
        parts.records.push(record);
    }
    parts
}

/// The record at the start of the octets, where it is whole and well-formed.
pub fn first_record(octets: &[u8]) -> Option<Record> {
    let head = octets.get(..HEAD)?;
    let length = usize::from(head[8]);
    let octets = octets.get(HEAD..HEAD + length)?.to_vec();
    let at = u32::from_be_bytes([head[4], head[5], head[6], head[7]]);
    let record = Record { kind: head[2], port: head[3], at, octets };
    (head[..2] == MARK && well_formed(&record)).then_some(record)
}

/// "Only kinds 3 and 4 can have a bad length"; of an operator octet bits 2 to 7 are zero.
fn well_formed(record: &Record) -> bool {
    match record.kind {
        PARAMETERS | SPDU => true,
        CLOCK => record.octets.is_empty(),
        OPERATOR => matches!(record.octets[..], [0..=3]),
        _ => false,
    }
}

/// The call that a record makes. Safe values are zeros of the length that the port takes, so that 7 is
/// never the answer; at a port that does not run 8 or 9 is, whatever is lent.
pub fn call(bench: &mut BenchModel, record: &Record) -> Reply {
    let Record { port, at, ref octets, .. } = *record;
    if record.kind == PARAMETERS {
        return bench.set_parameters(port, at, octets);
    }
    let safe_in = safe_values(bench, port, Direction::Response);
    match record.kind {
        SPDU => bench.receive_response(port, at, octets, &safe_in),
        CLOCK => {
            let safe_out = safe_values(bench, port, Direction::Request);
            bench.clock(port, at, &safe_in, &safe_out)
        }
        _ => {
            let signals = [octets[0] & 1 != 0, octets[0] & 2 != 0];
            bench.operator(port, at, signals, &safe_in)
        }
    }
}

pub fn safe_values(bench: &BenchModel, port: u8, direction: Direction) -> Vec<u8> {
    let octets = bench
        .format(port, direction)
        .map_or(0, |format| usize::from(format.length) - format.safety_octets());
    vec![0; octets]
}

/// Why a chunk is not read any further, with the library's numbers.
#[derive(Clone, Copy, Debug, PartialEq, Eq)]
pub enum Stop {
    /// A whole record, for whose line there may be no room.
    Full = 0,
    /// No record.
    Bad = 1,
    /// A record that is not whole.
    Cut = 2,
    /// No octets.
    End = 3,
}

/// By what stands there. Too few octets for a head are a record cut short; so are those that zeros behind them make a whole one.
pub fn stop(octets: &[u8]) -> Stop {
    if octets.is_empty() {
        return Stop::End;
    }
    if first_record(octets).is_some() {
        return Stop::Full;
    }
    match octets.get(HEAD - 1) {
        None => Stop::Cut,
        Some(&length) => {
            let mut completed = octets.to_vec();
            completed.resize(HEAD + usize::from(length), 0);
            first_record(&completed).map_or(Stop::Bad, |_| Stop::Cut)
        }
    }
}

/// A run over whole records: the bench, and the answer to each of them.
#[derive(Clone, Debug)]
pub struct Run {
    pub bench: BenchModel,
    pub numbers: Vec<u8>,
    /// How many records came before these, all of them refused.
    earlier: u64,
}

impl Run {
    pub fn new() -> Run {
        Run::after(0)
    }

    pub fn after(earlier: u64) -> Run {
        Run { bench: BenchModel::new(), numbers: Vec::new(), earlier }
    }

    pub fn take(&mut self, record: &Record) {
        let number = call(&mut self.bench, record).number;
        self.numbers.push(number);
    }

    /// "A, B and N stop at 2^64 - 1" (R29).
    fn counted(&self, count: usize) -> u64 {
        self.earlier.saturating_add(count as u64)
    }

    /// A and B after so many of the records.
    pub fn counts(&self, records: usize) -> [u64; 2] {
        let refused = self.numbers[..records].iter().filter(|&&number| number != 0).count();
        [records, refused].map(|count| self.counted(count))
    }

    /// The lines of those refused among some of the records.
    pub fn lines(&self, records: Range<usize>) -> String {
        let refused = records.filter(|&place| self.numbers[place] != 0);
        refused.map(|place| self.line(place, self.numbers[place])).collect()
    }

    fn line(&self, place: usize, number: u8) -> String {
        format!("r {} code {number}\n", self.counted(place + 1))
    }

    /// What is printed at the end. Where octets are left that are no whole record (`some`), they are a 13.
    pub fn closing(&self, some: bool) -> String {
        let taken = self.numbers.len();
        let [records, refused] = self.counts(taken);
        let (thirteen, refused) = match some {
            true => (self.line(taken, RECORD), refused.saturating_add(1)),
            false => (String::new(), refused),
        };
        let ports: String = (1..=8).map(|port| port_line(&self.bench, port)).collect();
        format!("{thirteen}records {records} refused {refused}\n{ports}")
    }
}

/// All that `portbench` prints.
pub fn printed(session: &[u8]) -> String {
    let Parts { records, rest } = parts(session);
    let mut run = Run::new();
    records.iter().for_each(|record| run.take(record));
    run.lines(0..records.len()) + &run.closing(!rest.is_empty())
}

/// The line of a port that runs; no text for another.
fn port_line(bench: &BenchModel, port: u8) -> String {
    let shown = bench.shown(port);
    if !shown.running {
        return String::new();
    }
    let line = format!("port {port} wd {} n {}", shown.parameters[W], shown.total);
    match shown.total {
        0 => line + "\n",
        _ => format!("{line} lo {} hi {}\n", shown.lowest, shown.highest),
    }
}

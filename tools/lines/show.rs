// A session into lines of text: each record and its fields, with a comment that says what the record did. The octets from a record
// that answers 13 on stand as they are.

use super::ends::{Ends, Told};
use super::fields::{ELEMENTS, LINES};
use super::stream::{Failure, Stream, MOST};
use super::why::{arrived, Arrived, Histories};
use super::words::octets_word;
use crate::model::block::LENGTH;
use crate::model::session::{Record, CLOCK, HEAD, MARK, OPERATOR, PARAMETERS, RECORD, SPDU};
use crate::model::spdu::{Direction, Format};
use std::io::{Read, Write};

/// 01, "Answer numbers".
const NAMES: [&str; 14] = [
    "TAKEN",
    "BLOCK_SIZE",
    "BLOCK_ID",
    "PORT_MODE",
    "NO_SCL",
    "FIELD_RANGE",
    "SIGNATURE",
    "BUFFER",
    "NO_PORT",
    "NOT_RUNNING",
    "SPDU_LENGTH",
    "NO_SAMPLES",
    "PORT_MISMATCH",
    "RECORD",
];

const OCTETS_IN_A_LINE: usize = 32;

pub fn show(input: impl Read, output: &mut impl Write) -> Result<(), Failure> {
    let mut stream = Stream::new(input);
    let mut ends = Ends::new();
    let mut histories = Histories::new();
    // As the N that `portbench` prints.
    let mut number = 0;
    while let Some(record) = stream.record()? {
        number += 1;
        let [first, more] = lines(&ends, &record);
        let spdu = Arrived::of(&ends, &record);
        let told = ends.take(&record);
        let comment = match told.number {
            0 => {
                histories.take(number, &record, &spdu, &told);
                let why = histories.why(number, record.port, &told.master);
                taken(&record, &told, &why)
            }
            _ => refused(&told),
        };
        writeln!(output, "{first}  # r {number} {comment}{more}").map_err(Failure::Write)?;
    }
    show_rest(&mut stream, number + 1, output)
}

/// The record's line, and the lines that go on with it.
fn lines(ends: &Ends, record: &Record) -> [String; 2] {
    let &Record { kind, port, at, ref octets } = record;
    let format = ends.bench().format(port, Direction::Response);
    let raw = octets_word(octets);
    let (word, fields, more) = match (kind, format) {
        (CLOCK, _) => ("clock", String::new(), String::new()),
        (OPERATOR, _) => ("operator", signals(octets[0]), String::new()),
        (PARAMETERS, _) if octets.len() == LENGTH => ("block", String::new(), elements(octets)),
        (PARAMETERS, _) => ("block", format!(" octets {raw}"), String::new()),
        (_, Some(format)) if octets.len() == usize::from(format.length) => {
            ("spdu", spdu_parts(&format, octets), String::new())
        }
        _ => ("spdu", format!(" octets {raw}"), String::new()),
    };
    [format!("{word} port {port} at {at}{fields}"), more]
}

fn signals(octet: u8) -> String {
    let names = [(1, " setSD_C"), (2, " ChFAck_C")];
    names.into_iter().filter(|(bit, _)| octet & bit != 0).map(|(_, name)| name).collect()
}

/// Every element of a block.
fn elements(block: &[u8]) -> String {
    let mut text = String::new();
    for element in &ELEMENTS {
        let number = element.of(block);
        let value = match element.name {
            _ if element.right(block) == Some(number) => "right".to_string(),
            "FSCP_Authenticity1" | "FSCP_Authenticity2" | "FSP_TechParCRC" => {
                format!("0x{number:08X}")
            }
            name if name == "ArgBlockID" || element.covers.is_some() => format!("0x{number:04X}"),
            _ => number.to_string(),
        };
        let gap = if LINES.contains(&element.offset) { "\n    " } else { " " };
        text += &format!("{gap}{} {value}", element.name);
    }
    text
}

/// The parts of an SPDU of the right length, as they stand.
fn spdu_parts(format: &Format, spdu: &[u8]) -> String {
    let (process, code) = spdu.split_at(spdu.len() - format.safety_octets());
    let (port, status) = (code[0], code[1]);
    let bits = [(4, " SDset"), (2, " DCommErr"), (1, " DTimeout")];
    let marks: String =
        bits.into_iter().filter(|(bit, _)| status & bit != 0).map(|(_, name)| name).collect();
    let reserved = match status >> 3 & 3 {
        0 => String::new(),
        bits => format!(" reserved {bits}"),
    };
    format!(
        " process {} FSP_Port {port} DCount_i {}{marks}{reserved} signature {}",
        octets_word(process),
        status >> 5,
        octets_word(&code[2..])
    )
}

/// A refusal as `portbench` prints it, with the answer's name and the element that it speaks of.
fn refused(told: &Told) -> String {
    let element = ELEMENTS.iter().find(|element| told.offset != 0 && element.offset == told.offset);
    let place = element.map_or(String::new(), |element| format!(" {}", element.name));
    format!("code {}, {}{place}", told.number, NAMES[usize::from(told.number)])
}

fn taken(record: &Record, told: &Told, why: &str) -> String {
    let mut notes: Vec<String> = told.rows.iter().map(|row| format!("T{row}")).collect();
    match record.kind {
        PARAMETERS => notes.push("taken".to_string()),
        SPDU if !arrived(&told.rows) => notes.push("ignored".to_string()),
        _ => (),
    }
    notes.extend(told.sample.map(|time| format!("sample {time} ms")));
    notes.push(if told.releases { "released".to_string() } else { format!("safe values: {why}") });
    notes.join(", ")
}

/// What follows the last whole record: its first octets are the record of this number, which answers 13.
fn show_rest<R: Read>(
    stream: &mut Stream<R>,
    number: u64,
    output: &mut impl Write,
) -> Result<(), Failure> {
    let rest = stream.ahead(MOST)?;
    if rest.is_empty() {
        return Ok(());
    }
    let wrong = malformed(rest);
    let comment =
        format!("# r {number} code {RECORD}, RECORD: {wrong}; nothing is read from here on");
    writeln!(output, "{comment}").map_err(Failure::Write)?;
    loop {
        let octets = stream.octets(OCTETS_IN_A_LINE)?;
        if octets.is_empty() {
            return Ok(());
        }
        writeln!(output, "octets {}", octets_word(octets)).map_err(Failure::Write)?;
    }
}

/// Why the octets do not begin with a whole, well-formed record.
fn malformed(rest: &[u8]) -> &'static str {
    let head = match rest.get(..HEAD) {
        Some(head) => head,
        None => return "cut short",
    };
    match (head[2], head[8]) {
        _ if head[..2] != MARK => "bad mark",
        (0, _) | (5..=255, _) => "bad kind",
        (CLOCK, 1..=255) | (OPERATOR, 0 | 2..=255) => "bad length",
        (_, length) if rest.len() < HEAD + usize::from(length) => "cut short",
        _ => "bad operator octet",
    }
}

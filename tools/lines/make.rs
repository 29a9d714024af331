// Lines of text into a session: examples/README.md has their form.

use super::ends::Ends;
use super::fields;
use super::words::Words;
use crate::model::session::{CLOCK, MARK, OPERATOR, PARAMETERS, SPDU};
use crate::model::spdu::{Direction, Format, Values};

/// The octets of the session; or what is wrong, with the number of the line.
pub fn make(text: &str) -> Result<Vec<u8>, String> {
    let mut maker = Maker { octets: Vec::new(), taken: 0, ends: Ends::new() };
    for (number, line) in joined(text) {
        maker.line(&line).map_err(|wrong| format!("line {number}: {wrong}"))?;
    }
    Ok(maker.octets)
}

/// The lines without comments, each with those that go on with it, and the number of its first.
fn joined(text: &str) -> Vec<(usize, String)> {
    let mut lines: Vec<(usize, String)> = Vec::new();
    for (place, line) in text.lines().enumerate() {
        let line = line.split('#').next().unwrap_or("");
        if line.trim().is_empty() {
            continue;
        }
        match lines.last_mut() {
            Some((_, above)) if line.starts_with([' ', '\t']) => above.push_str(line),
            _ => lines.push((place + 1, line.to_string())),
        }
    }
    lines
}

struct Maker {
    octets: Vec<u8>,
    /// How many octets of the session both ends have taken.
    taken: usize,
    ends: Ends,
}

impl Maker {
    fn line(&mut self, line: &str) -> Result<(), String> {
        let words = &mut Words::of(line);
        match words.need("the kind of record")? {
            "block" => self.block(words)?,
            "response" => self.response(words)?,
            "spdu" => self.spdu(words)?,
            "clock" => {
                let (port, at) = self.place(words)?;
                self.record(CLOCK, port, at, &[])?;
            }
            "operator" => self.operator(words)?,
            "record" => self.any_record(words)?,
            "octets" => {
                while let Some(word) = words.next() {
                    self.octets.extend(super::words::octets(word)?);
                }
            }
            word => return Err(format!("`{word}` is no kind of line")),
        }
        if let Some(word) = words.next() {
            return Err(format!("`{word}` is not expected"));
        }
        self.taken += self.ends.take_all(&self.octets[self.taken..]);
        Ok(())
    }

    /// `port P WHEN`.
    fn place(&mut self, words: &mut Words) -> Result<(u8, u32), String> {
        words.expect("port")?;
        let port = words.octet("port")?;
        let at = match words.need("`at` or `after`")? {
            "at" => words.number("the reading", 4)?,
            "after" => {
                let elapsed = words.number("the time", 4)?;
                words.expect("ms")?;
                self.ends.reading(port).wrapping_add(elapsed)
            }
            word => return Err(format!("`at` or `after` is expected, not `{word}`")),
        };
        Ok((port, at))
    }

    fn record(&mut self, kind: u8, port: u8, at: u32, octets: &[u8]) -> Result<(), String> {
        self.write(&MARK, kind, port, at, length_octet(octets)?, octets);
        Ok(())
    }

    fn write(&mut self, mark: &[u8], kind: u8, port: u8, at: u32, length: u8, octets: &[u8]) {
        self.octets.extend(mark);
        self.octets.extend([kind, port]);
        self.octets.extend(at.to_be_bytes());
        self.octets.push(length);
        self.octets.extend(octets);
    }

    fn block(&mut self, words: &mut Words) -> Result<(), String> {
        let (port, at) = self.place(words)?;
        let octets = match raw(words)? {
            Some(octets) => octets,
            None => fields::block(port, words)?,
        };
        self.record(PARAMETERS, port, at, &octets)
    }

    fn operator(&mut self, words: &mut Words) -> Result<(), String> {
        let (port, at) = self.place(words)?;
        let mut signals = 0;
        while let Some(word) = words.next() {
            signals |= match word {
                "setSD_C" => 1,
                "ChFAck_C" => 2,
                _ => return Err(format!("`{word}` is no operator signal")),
            };
        }
        self.record(OPERATOR, port, at, &[signals])
    }

    /// Also one that is malformed.
    fn any_record(&mut self, words: &mut Words) -> Result<(), String> {
        let mark = if words.found("mark") { words.octets("the mark")? } else { MARK.to_vec() };
        words.expect("kind")?;
        let kind = words.octet("the kind")?;
        let (port, at) = self.place(words)?;
        let given = if words.found("length") { Some(words.octet("the length")?) } else { None };
        words.expect("octets")?;
        let octets = words.octets("octets")?;
        let length = given.map_or_else(|| length_octet(&octets), Ok)?;
        self.write(&mark, kind, port, at, length, &octets);
        Ok(())
    }

    /// The parts as they stand.
    fn spdu(&mut self, words: &mut Words) -> Result<(), String> {
        let (port, at) = self.place(words)?;
        if let Some(octets) = raw(words)? {
            return self.record(SPDU, port, at, &octets);
        }
        words.expect("process")?;
        let mut octets = words.octets("process octets")?;
        words.expect("FSP_Port")?;
        octets.push(words.octet("FSP_Port")?);
        words.expect("DCount_i")?;
        let mut status = count(words)? << 5;
        loop {
            status |= match words.need("`signature`")? {
                "SDset" => 4,
                "DCommErr" => 2,
                "DTimeout" => 1,
                "reserved" => (words.octet("the reserved bits")? & 3) << 3,
                "signature" => break,
                word => return Err(format!("`{word}` is no part of an SPDU")),
            };
        }
        octets.push(status);
        octets.extend(words.octets("the signature")?);
        self.record(SPDU, port, at, &octets)
    }

    fn response(&mut self, words: &mut Words) -> Result<(), String> {
        let (port, at) = self.place(words)?;
        let mut wish = Wish::default();
        let mut changes = Vec::new();
        while let Some(word) = words.next() {
            match word {
                "damaged" => {
                    words.expect("bit")?;
                    changes.push(Change::Bit(words.number("the bit", 2)? as usize));
                }
                "length" => changes.push(Change::Length(words.octet("the length")?.into())),
                _ => wish.take(word, words)?,
            }
        }
        let mut spdu = self.wished(port, at, &wish)?;
        for change in changes {
            change.make(&mut spdu)?;
        }
        self.record(SPDU, port, at, &spdu)
    }

    fn wished(&mut self, port: u8, at: u32, wish: &Wish) -> Result<Vec<u8>, String> {
        if let Some(octets) = &wish.octets {
            return Ok(octets.clone());
        }
        let format = self
            .ends
            .bench()
            .format(port, Direction::Response)
            .ok_or_else(|| format!("port {port} does not run, so that nobody answers"))?;
        if wish.repeated {
            return Ok(self.ends.last_spdu(port).to_vec());
        }
        if wish.zeros {
            return Ok(vec![0; format.length.into()]);
        }
        let spdu = self
            .ends
            .response(port, at, wish.process.clone())
            .ok_or_else(|| "the process octets are not as many as the block says".to_string())?;
        Ok(if wish.signs_anew() { wish.signed_anew(&format, &spdu) } else { spdu })
    }
}

/// What a line asks of a response.
#[derive(Default)]
struct Wish {
    process: Option<Vec<u8>>,
    octets: Option<Vec<u8>>,
    repeated: bool,
    zeros: bool,
    count: Option<u8>,
    port: Option<u8>,
    /// SDset, DCommErr, DTimeout.
    marks: [bool; 3],
}

impl Wish {
    fn take(&mut self, word: &str, words: &mut Words) -> Result<(), String> {
        match word {
            "process" => self.process = Some(words.octets("process octets")?),
            "octets" => self.octets = Some(words.octets("octets")?),
            "repeated" => self.repeated = true,
            "zeros" => self.zeros = true,
            "DCount_i" => self.count = Some(count(words)?),
            "FSP_Port" => self.port = Some(words.octet("FSP_Port")?),
            "SDset" => self.marks[0] = true,
            "DCommErr" => self.marks[1] = true,
            "DTimeout" => self.marks[2] = true,
            _ => return Err(format!("`{word}` is no part of a response")),
        }
        Ok(())
    }

    fn signs_anew(&self) -> bool {
        self.count.is_some() || self.port.is_some() || self.marks.contains(&true)
    }

    fn signed_anew(&self, format: &Format, spdu: &[u8]) -> Vec<u8> {
        let fields = format.read(spdu);
        let values = Values {
            responded: true,
            count: self.count.unwrap_or(fields.count),
            marks: [0, 1, 2].map(|mark| fields.marks[mark] || self.marks[mark]),
        };
        let named = Format { port: self.port.unwrap_or(format.port), ..*format };
        let process = &spdu[..spdu.len() - format.safety_octets()];
        named.build(&values, process, spdu).1
    }
}

enum Change {
    Bit(usize),
    Length(usize),
}

impl Change {
    fn make(&self, spdu: &mut Vec<u8>) -> Result<(), String> {
        match *self {
            Change::Bit(bit) if bit >= 8 * spdu.len() => {
                return Err(format!("there is no bit {bit}"))
            }
            Change::Bit(bit) => spdu[bit / 8] ^= 0x80 >> bit % 8,
            Change::Length(length) => spdu.resize(length, 0),
        }
        Ok(())
    }
}

/// `octets HEX` in place of all fields.
fn raw(words: &mut Words) -> Result<Option<Vec<u8>>, String> {
    if words.found("octets") {
        return words.octets("octets").map(Some);
    }
    Ok(None)
}

fn length_octet(octets: &[u8]) -> Result<u8, String> {
    u8::try_from(octets.len()).map_err(|_| "a record has at most 255 octets".to_string())
}

fn count(words: &mut Words) -> Result<u8, String> {
    match words.octet("DCount_i")? {
        count @ 0..=7 => Ok(count),
        count => Err(format!("DCount_i {count} is above 7")),
    }
}

// The elements of a parameter block (000 Table 22) by name, and blocks made from lines.

use super::words::Words;
use crate::model::block::{element, put, signature, sizes, LENGTH};

pub struct Element {
    pub name: &'static str,
    pub offset: usize,
    pub octets: usize,
    /// A signature: the first and the last octet that it covers (000 Tables A.1 and A.4).
    pub covers: Option<(usize, usize)>,
}

const fn value(name: &'static str, offset: usize, octets: usize) -> Element {
    Element { name, offset, octets, covers: None }
}

const fn signed(name: &'static str, offset: usize, first: usize, last: usize) -> Element {
    Element { name, offset, octets: 2, covers: Some((first, last)) }
}

/// In the order of Table 22. FSP_IO_StructCRC stands before FSP_ProtParCRC, which covers it.
pub const ELEMENTS: [Element; 30] = [
    value("ArgBlockID", 0, 2),
    value("PortMode", 2, 1),
    value("ValidationBackup", 3, 1),
    value("IQBehavior", 4, 1),
    value("PortCycleTime", 5, 1),
    value("VendorID", 6, 2),
    value("DeviceID", 8, 4),
    value("InputDataLength", 12, 1),
    value("OutputDataLength", 13, 1),
    value("FSCP_Authenticity1", 14, 4),
    value("FSCP_Authenticity2", 18, 4),
    value("FSP_Port", 22, 1),
    signed("FSP_AuthentCRC", 23, 14, 22),
    value("FSP_ProtVersion", 25, 1),
    value("FSP_ProtMode", 26, 1),
    value("FSP_WatchdogTime", 27, 2),
    signed("FSP_IO_StructCRC", 29, 37, 47),
    value("FSP_TechParCRC", 31, 4),
    signed("FSP_ProtParCRC", 35, 25, 34),
    value("IO_DescVersion", 37, 1),
    value("SPDUInLength", 38, 1),
    value("TotalOfInBits", 39, 1),
    value("TotalOfInOctets", 40, 1),
    value("TotalOfInInt16", 41, 1),
    value("TotalOfInInt32", 42, 1),
    value("SPDUOutLength", 43, 1),
    value("TotalOfOutBits", 44, 1),
    value("TotalOfOutOctets", 45, 1),
    value("TotalOfOutInt16", 46, 1),
    value("TotalOfOutInt32", 47, 1),
];

/// The elements that begin a line where a block is shown.
pub const LINES: [usize; 6] = [0, 6, 14, 25, 37, 43];

impl Element {
    pub fn of(&self, block: &[u8]) -> u32 {
        element(block, self.offset, self.octets)
    }

    /// A signature that belongs to the other octets.
    pub fn right(&self, block: &[u8]) -> Option<u32> {
        self.covers.map(|(first, last)| signature(&block[first..=last]))
    }
}

#[derive(Clone, Copy)]
enum Signature {
    Right,
    Wrong,
    Given(u32),
}

/// A block as its line describes it so far.
struct Draft {
    octets: [u8; LENGTH],
    signatures: [Signature; ELEMENTS.len()],
    /// The octets are cut or filled up with zeros to this size.
    size: usize,
    /// The offsets that the line gave a number for.
    given: Vec<usize>,
}

/// The octets of a block for a port, from the words after its clock. Every element has a default that the port takes: FSP_ProtMode
/// 1, a watchdog of 100 ms, one process octet each way.
pub fn block(port: u8, words: &mut Words) -> Result<Vec<u8>, String> {
    let mut draft = Draft {
        octets: [0; LENGTH],
        signatures: [Signature::Right; ELEMENTS.len()],
        size: LENGTH,
        given: Vec::new(),
    };
    for (name, number) in [
        ("ArgBlockID", 0x8001),
        ("PortMode", 49),
        ("VendorID", 1),
        ("DeviceID", 1),
        ("FSP_Port", port.into()),
        ("FSP_ProtVersion", 1),
        ("FSP_ProtMode", 1),
        ("FSP_WatchdogTime", 100),
        ("IO_DescVersion", 1),
        ("TotalOfInOctets", 1),
        ("TotalOfOutOctets", 1),
    ] {
        let (_, element) = named(name)?;
        put(&mut draft.octets, element.offset, element.octets, number);
    }
    while let Some(word) = words.next() {
        draft.take(word, words)?;
    }
    Ok(draft.finish())
}

fn named(name: &str) -> Result<(usize, &'static Element), String> {
    let place = ELEMENTS.iter().position(|element| element.name == name);
    place.map(|place| (place, &ELEMENTS[place])).ok_or_else(|| format!("`{name}` is no element"))
}

impl Draft {
    fn take(&mut self, word: &str, words: &mut Words) -> Result<(), String> {
        match word {
            "mode" => self.element("FSP_ProtMode", words),
            "watchdog" => self.element("FSP_WatchdogTime", words),
            "in" => self.element("TotalOfInOctets", words),
            "out" => self.element("TotalOfOutOctets", words),
            "size" => {
                self.size = words.octet("size")?.into();
                Ok(())
            }
            "wrong" => {
                let (place, element) = named(words.need("the signature")?)?;
                match element.covers {
                    Some(_) => self.signatures[place] = Signature::Wrong,
                    None => return Err(format!("`{}` is no signature", element.name)),
                }
                Ok(())
            }
            _ => self.element(word, words),
        }
    }

    fn element(&mut self, name: &str, words: &mut Words) -> Result<(), String> {
        let (place, element) = named(name)?;
        if element.covers.is_none() {
            let number = words.number(name, element.octets)?;
            put(&mut self.octets, element.offset, element.octets, number);
            self.given.push(element.offset);
            return Ok(());
        }
        self.signatures[place] = match words.need(name)? {
            "right" => Signature::Right,
            word => Signature::Given(Words::of(word).number(name, element.octets)?),
        };
        Ok(())
    }

    /// The lengths, bits and signatures that the line left open belong to the other elements.
    fn finish(mut self) -> Vec<u8> {
        for offset in [38, 43] {
            let bits = self.octets[offset + 2].saturating_mul(8);
            self.leave(offset, self.counted_length(offset));
            self.leave(offset + 1, bits);
        }
        for (place, element) in ELEMENTS.iter().enumerate() {
            if let Some(right) = element.right(&self.octets) {
                let number = match self.signatures[place] {
                    Signature::Right => right,
                    Signature::Wrong => right ^ 1,
                    Signature::Given(number) => number,
                };
                put(&mut self.octets, element.offset, element.octets, number);
            }
        }
        let mut octets = self.octets.to_vec();
        octets.resize(self.size, 0);
        octets
    }

    /// For an octet that the line left open.
    fn leave(&mut self, offset: usize, octet: u8) {
        if !self.given.contains(&offset) {
            self.octets[offset] = octet;
        }
    }

    fn counted_length(&self, offset: usize) -> u8 {
        let [octets, int16, int32] = [2, 3, 4].map(|place| u32::from(self.octets[offset + place]));
        let length = sizes(self.octets[26]).0 + octets + 2 * int16 + 4 * int32;
        length.min(255) as u8
    }
}

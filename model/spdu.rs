// Safety PDUs (000 11.4.4 to 11.4.7): process octets, port number, control or status octet,
// signature. An octet is the list of its bits, and the signature is that of signature.rs.

use super::signature::{bits_number, number_bits, signature_by_numbers, Generator, LONG, SHORT};

#[derive(Clone, Copy, Debug, PartialEq, Eq)]
pub enum Direction {
    /// From the FS-Master: a control octet (Table 31).
    Request,
    /// From the FS-Device: a status octet (Table 32).
    Response,
}

/// What a port's parameters say of the SPDUs in one direction.
#[derive(Clone, Copy, Debug)]
pub struct Format {
    pub direction: Direction,
    pub mode: u8,
    pub port: u8,
    pub length: u8,
}

#[derive(Clone, Copy, Debug)]
pub struct Values {
    /// A request needs no response before it, and is built the same either way.
    pub responded: bool,
    pub count: u8,
    /// Bits 2, 1 and 0. Bit 2 of a control octet is reserved.
    pub marks: [bool; 3],
}

#[derive(Debug, PartialEq, Eq)]
pub struct Fields {
    pub length: usize,
    pub count: u8,
    pub marks: [bool; 3],
    pub port_holds: bool,
    pub signature_holds: bool,
    pub all_zero: bool,
}

impl Format {
    pub fn generator(&self) -> Generator {
        if self.mode == 1 {
            SHORT
        } else {
            LONG
        }
    }

    fn signature_octets(&self) -> usize {
        self.generator().width / 8
    }

    /// H, the octets that are not process data.
    pub fn safety_octets(&self) -> usize {
        2 + self.signature_octets()
    }

    /// What stands ahead of the signature. An SPDU shorter than H has no process octets.
    pub fn contents<'a>(&self, spdu: &'a [u8]) -> &'a [u8] {
        let contents = spdu.len().saturating_sub(self.signature_octets()).max(2);
        &spdu[..contents.min(spdu.len())]
    }

    /// The process octets of an SPDU of the right length: what stands ahead of port number, control or status octet and
    /// signature.
    pub fn process<'a>(&self, spdu: &'a [u8]) -> &'a [u8] {
        let contents = self.contents(spdu);
        &contents[..contents.len() - 2]
    }

    /// The signature of contents from seed 1, before a zero is replaced.
    pub fn computed(&self, contents: &[u8]) -> u32 {
        signature_by_numbers(self.generator(), 1, contents)
    }

    /// The contents with their signature, a zero replaced by 1.
    pub fn signed(&self, contents: &[u8]) -> Vec<u8> {
        let signature = self.computed(contents).max(1).to_be_bytes();
        [contents, &signature[4 - self.signature_octets()..]].concat()
    }

    /// The answer's number, and what a buffer holds afterwards.
    pub fn build(&self, values: &Values, process: &[u8], buffer: &[u8]) -> (u8, Vec<u8>) {
        let length = usize::from(self.length);
        if process.len() + self.safety_octets() != length || buffer.len() != length {
            return (7, buffer.to_vec());
        }
        let octets = match self.direction {
            Direction::Request if values.marks[1] => self.spdu(values, &vec![0; process.len()]),
            Direction::Response if !values.responded => vec![0; length],
            _ => self.spdu(values, process),
        };
        (0, octets)
    }

    fn spdu(&self, values: &Values, process: &[u8]) -> Vec<u8> {
        let [bit2, bit1, bit0] = values.marks;
        let bit2 = bit2 && self.direction == Direction::Response;
        let mut bits = number_bits(values.count.into(), 3);
        bits.extend([false, false, bit2, bit1, bit0]);
        self.signed(&[process, &[self.port, bits_number(&bits) as u8]].concat())
    }

    pub fn read(&self, spdu: &[u8]) -> Fields {
        let length = spdu.len();
        if length != usize::from(self.length) {
            return Fields {
                length,
                count: 0,
                marks: [false; 3],
                port_holds: false,
                signature_holds: false,
                all_zero: false,
            };
        }
        let contents = self.contents(spdu);
        // Octets that a short SPDU lacks read as zeros.
        let mut whole = spdu.to_vec();
        whole.resize(length.max(self.safety_octets()), 0);
        let trailer = &whole[whole.len() - self.safety_octets()..];
        let bits = number_bits(trailer[1].into(), 8);
        let bit2 = bits[5] && self.direction == Direction::Response;
        Fields {
            length,
            count: bits_number(&bits[..3]) as u8,
            marks: [bit2, bits[6], bits[7]],
            port_holds: trailer[0] == self.port,
            signature_holds: self.signed(contents)[contents.len()..] == trailer[2..],
            all_zero: spdu.iter().all(|&octet| octet == 0),
        }
    }
}

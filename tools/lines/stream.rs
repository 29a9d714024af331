// A session's records one after the other, from an input of any length: no more than a chunk of it is kept.

use crate::model::session::{first_record, Record, HEAD};
use std::io::{Error, ErrorKind, Read};

/// The longest record.
pub const MOST: usize = HEAD + 255;
const CHUNK: usize = 65536;

/// Why lines or a session are not all there.
#[derive(Debug)]
pub enum Failure {
    Read(Error),
    Write(Error),
    /// What is wrong with the lines that a session is to be made of.
    Lines(String),
}

pub struct Stream<R> {
    input: R,
    chunk: Vec<u8>,
    /// The octets of the chunk that were read and not yet used.
    from: usize,
    to: usize,
}

impl<R: Read> Stream<R> {
    pub fn new(input: R) -> Stream<R> {
        Stream { input, chunk: vec![0; CHUNK], from: 0, to: 0 }
    }

    /// The next record; None where what follows is no whole, well-formed one.
    pub fn record(&mut self) -> Result<Option<Record>, Failure> {
        let length = self.ahead(HEAD)?.get(HEAD - 1).copied().unwrap_or(0);
        let record = first_record(self.ahead(HEAD + usize::from(length))?);
        self.from += record.as_ref().map_or(0, Record::size);
        Ok(record)
    }

    /// The next octets, which are taken: at most so many, and fewer only at the end.
    pub fn octets(&mut self, most: usize) -> Result<&[u8], Failure> {
        let count = self.ahead(most)?.len().min(most);
        self.from += count;
        Ok(&self.chunk[self.from - count..self.from])
    }

    /// The next octets, which are not taken: at least so many, or all up to the end.
    pub fn ahead(&mut self, least: usize) -> Result<&[u8], Failure> {
        if self.to - self.from < least {
            self.chunk.copy_within(self.from..self.to, 0);
            self.to -= self.from;
            self.from = 0;
        }
        while self.to - self.from < least {
            match self.input.read(&mut self.chunk[self.to..]) {
                Ok(0) => break,
                Ok(count) => self.to += count,
                Err(error) if error.kind() == ErrorKind::Interrupted => (),
                Err(error) => return Err(Failure::Read(error)),
            }
        }
        Ok(&self.chunk[self.from..self.to])
    }
}

// The words of a line.

use std::iter::Peekable;
use std::str::SplitWhitespace;

pub struct Words<'a> {
    words: Peekable<SplitWhitespace<'a>>,
}

impl<'a> Words<'a> {
    pub fn of(line: &'a str) -> Words<'a> {
        Words { words: line.split_whitespace().peekable() }
    }

    pub fn next(&mut self) -> Option<&'a str> {
        self.words.next()
    }

    /// Whether the next word is this one, which is then read.
    pub fn found(&mut self, word: &str) -> bool {
        self.words.next_if_eq(&word).is_some()
    }

    /// The word that a line can't go without.
    pub fn need(&mut self, what: &str) -> Result<&'a str, String> {
        self.next().ok_or_else(|| format!("{what} is missing"))
    }

    pub fn expect(&mut self, word: &str) -> Result<(), String> {
        match self.next() {
            Some(found) if found == word => Ok(()),
            Some(found) => Err(format!("`{word}` is expected, not `{found}`")),
            None => Err(format!("`{word}` is missing")),
        }
    }

    /// A number that fits in so many octets.
    pub fn number(&mut self, what: &str, octets: usize) -> Result<u32, String> {
        let number = number(self.need(what)?)?;
        match number >> 8 * octets {
            0 => Ok(number as u32),
            _ => Err(format!("{what} {number} is above {}", (1u64 << 8 * octets) - 1)),
        }
    }

    pub fn octet(&mut self, what: &str) -> Result<u8, String> {
        Ok(self.number(what, 1)? as u8)
    }

    pub fn octets(&mut self, what: &str) -> Result<Vec<u8>, String> {
        octets(self.need(what)?)
    }
}

/// Decimal, or hexadecimal after 0x.
pub fn number(word: &str) -> Result<u64, String> {
    let parsed = match word.strip_prefix("0x") {
        Some(digits) => u64::from_str_radix(digits, 16),
        None => word.parse(),
    };
    parsed.map_err(|_| format!("`{word}` is not a number"))
}

/// Two hexadecimal digits for each octet; `-` is none.
pub fn octets(word: &str) -> Result<Vec<u8>, String> {
    if word == "-" {
        return Ok(Vec::new());
    }
    let pairs = word.as_bytes().chunks(2);
    pairs
        .map(|pair| {
            let digits = std::str::from_utf8(pair).ok().filter(|digits| hexadecimal(digits));
            digits.and_then(|digits| u8::from_str_radix(digits, 16).ok())
        })
        .collect::<Option<Vec<u8>>>()
        .ok_or_else(|| format!("`{word}` is not octets in hexadecimal"))
}

/// Two digits, with no sign in front.
fn hexadecimal(digits: &str) -> bool {
    digits.len() == 2 && digits.bytes().all(|digit| digit.is_ascii_hexdigit())
}

pub fn octets_word(octets: &[u8]) -> String {
    const DIGITS: &[u8; 16] = b"0123456789ABCDEF";
    match octets {
        [] => "-".to_string(),
        _ => {
            let digits = octets.iter().flat_map(|octet| [octet >> 4, octet & 15]);
            digits.map(|digit| char::from(DIGITS[usize::from(digit)])).collect()
        }
    }
}

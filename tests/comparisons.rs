// Counts what a test program compared, and shows what differed.
#![allow(dead_code)]

use std::fmt::Debug;

const SHOWN_DIFFERENCES: u64 = 10;
const SHOWN_OCTETS: usize = 512;

pub struct Comparisons {
    program: &'static str,
    made: u64,
    differ: u64,
}

impl Comparisons {
    pub fn new(program: &'static str) -> Comparisons {
        Comparisons { program, made: 0, differ: 0 }
    }

    /// `inputs` is asked for its text only where the two values differ.
    pub fn compare<T: PartialEq + Debug>(
        &mut self,
        expected: T,
        found: T,
        inputs: impl FnOnce() -> String,
    ) {
        self.made += 1;
        if expected != found {
            self.differ += 1;
            if self.differ <= SHOWN_DIFFERENCES {
                let program = self.program;
                let inputs = inputs();
                println!("{program}: {inputs}: expected {expected:#x?}, found {found:#x?}");
            }
        }
    }

    /// Prints the counts, and ends the program with status 1 where anything differed.
    pub fn finish(self) {
        let Comparisons { program, made, differ } = self;
        println!("{program}: {made} comparisons, {differ} differ");
        if made == 0 || differ > 0 {
            std::process::exit(1);
        }
    }
}

/// The octets in hexadecimal, cut where they are many: the run's seed makes them again.
pub fn octets_text(octets: &[u8]) -> String {
    let shown = &octets[..octets.len().min(SHOWN_OCTETS)];
    let text: String = shown.iter().map(|octet| format!("{octet:02X}")).collect();
    let cut = if shown.len() < octets.len() { ".." } else { "" };
    format!("{} octets [{text}{cut}]", octets.len())
}

// A deterministic generator of numbers (splitmix64), so that a run can be made again from its seed.
#![allow(dead_code)]

pub struct Random {
    state: u64,
}

impl Random {
    /// From the seed in the program's first argument. Without one the seed is fixed, so that the
    /// same library gives the same answer in each run.
    pub fn from_arguments(program: &str) -> Random {
        let seed = match std::env::args().nth(1) {
            Some(word) => word.parse().expect("the seed is a decimal number"),
            None => 1,
        };
        println!("{program}: seed {seed}");
        Random::from_seed(seed)
    }

    pub fn from_seed(seed: u64) -> Random {
        Random { state: seed }
    }

    pub fn number(&mut self) -> u64 {
        self.state = self.state.wrapping_add(0x9E3779B97F4A7C15);
        let mixed = (self.state ^ self.state >> 30).wrapping_mul(0xBF58476D1CE4E5B9);
        let mixed = (mixed ^ mixed >> 27).wrapping_mul(0x94D049BB133111EB);
        mixed ^ mixed >> 31
    }

    pub fn below(&mut self, bound: usize) -> usize {
        (self.number() % bound as u64) as usize
    }

    pub fn flag(&mut self) -> bool {
        self.number() >> 63 == 1
    }

    pub fn octet(&mut self) -> u8 {
        (self.number() >> 56) as u8
    }

    pub fn octets(&mut self, count: usize) -> Vec<u8> {
        (0..count).map(|_| self.octet()).collect()
    }
}

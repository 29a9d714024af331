// The library's signatures (000 Annex D), by table and by bit shift, against long division, over many inputs.
// Argument: the seed of the random inputs, or none.

mod comparisons;
mod flips;
#[path = "../bindings/rust/library.rs"]
mod library;
#[path = "../model/mod.rs"]
mod model;
mod random;

use comparisons::{octets_text, Comparisons};
use model::signature::{
    add, bits_number, divides, number_bits, octet_bits, signature, Generator, LONG, SHORT,
};
use random::Random;

/// The library's functions of one width. Numbers are widened to 32 bits, so that each test is
/// written once for both widths.
struct Width {
    generator: Generator,
    /// The bits of a look-up, which divide an octet's.
    index_bits: usize,
    /// The table between two entries that the library must leave alone. Each entry holds the given
    /// number before the library fills the table.
    guarded_table: fn(u32) -> Vec<u32>,
    step: fn(u32, u8) -> u32,
    step_by_shift: fn(u32, u8) -> u32,
    plain: fn(u32, &[u8]) -> u32,
    by_shift: fn(u32, &[u8]) -> u32,
    lent: fn(&[u32], u32, &[u8]) -> u32,
}

const WIDTHS: [Width; 2] = [
    Width {
        generator: SHORT,
        index_bits: 8,
        guarded_table: guarded_table16,
        step: |register, octet| library::step16(register as u16, octet).into(),
        step_by_shift: |register, octet| library::step16_by_shift(register as u16, octet).into(),
        plain: |seed, octets| library::signature16(seed as u16, octets).into(),
        by_shift: |seed, octets| library::signature16_by_shift(seed as u16, octets).into(),
        lent: |table, seed, octets| {
            let table: [u16; 256] = std::array::from_fn(|index| table[index] as u16);
            library::signature16_by(&table, seed as u16, octets).into()
        },
    },
    Width {
        generator: LONG,
        index_bits: 4,
        guarded_table: guarded_table32,
        step: library::step32,
        step_by_shift: library::step32_by_shift,
        plain: library::signature32,
        by_shift: library::signature32_by_shift,
        lent: |table, seed, octets| {
            library::signature32_by(table.try_into().unwrap(), seed, octets)
        },
    },
];

fn guarded_table16(before: u32) -> Vec<u32> {
    let mut entries = [before as u16; 258];
    library::table16((&mut entries[1..257]).try_into().unwrap());
    entries.map(u32::from).to_vec()
}

fn guarded_table32(before: u32) -> Vec<u32> {
    let mut entries = [before; 18];
    library::table32((&mut entries[1..17]).try_into().unwrap());
    entries.to_vec()
}

impl Width {
    fn bits(&self) -> usize {
        self.generator.width
    }

    fn ones(&self) -> u32 {
        u32::MAX >> (32 - self.bits())
    }

    fn register(&self, random: &mut Random) -> u32 {
        random.number() as u32 & self.ones()
    }

    fn seeds(&self, random: &mut Random) -> [u32; 4] {
        [0, 1, self.ones(), self.register(random)]
    }

    fn entries(&self) -> usize {
        1 << self.index_bits
    }

    fn table(&self) -> Vec<u32> {
        (self.guarded_table)(0)[1..=self.entries()].to_vec()
    }

    fn wrong_table(&self, random: &mut Random) -> Vec<u32> {
        (0..self.entries()).map(|_| self.register(random)).collect()
    }
}

/// 000 Figures D.4 and D.6, over any table, with the bits that a look-up has.
fn by_lookup(width: &Width, table: &[u32], seed: u32, octets: &[u8]) -> u32 {
    let bits = width.index_bits;
    let mut register = seed;
    for &octet in octets {
        for place in (0..8).step_by(bits).rev() {
            let data = u32::from(octet) >> place;
            let index = (register >> (width.bits() - bits) ^ data) as usize % width.entries();
            register = table[index] ^ (register << bits & width.ones());
        }
    }
    register
}

/// 000 Figure D.3.
fn by_shifts(mut register: u16, mut octet: u8) -> u16 {
    for _ in 0..8 {
        if (register & 0x8000 != 0) != (octet & 0x80 != 0) {
            register = register << 1 ^ 0x4EAB;
        } else {
            register <<= 1;
        }
        octet <<= 1;
    }
    register
}

/// Width, seed, octets, signature.
const KNOWN: [(usize, u32, &[u8], u32); 5] = [
    (16, 0, b"123456789", 52901),
    (16, 1, b"123456789", 42332),
    (32, 0, b"123456789", 1822393512),
    (32, 1, b"123456789", 2278983927),
    // 000 Figure A.1
    (16, 0, &[0x01, 0x07, 0x0D, 0x02, 0x01, 0x00, 0x03, 0x00, 0x00, 0x00, 0x00], 0x0952),
];

struct Message {
    octets: Vec<u8>,
    signature: u32,
}

impl Message {
    fn flipped(&self, flips: &[bool], width: usize) -> Message {
        let mut bits = octet_bits(&self.octets);
        bits.extend(number_bits(self.signature, width));
        add(&mut bits, flips);
        let signature = bits_number(&bits.split_off(bits.len() - width));
        let octets = bits.chunks(8).map(|octet| bits_number(octet) as u8).collect();
        Message { octets, signature }
    }

    fn text(&self) -> String {
        format!("{}, signature {:#x}", octets_text(&self.octets), self.signature)
    }
}

/// The tests of one width.
struct Test<'a> {
    width: &'a Width,
    table: Vec<u32>,
    comparisons: &'a mut Comparisons,
    random: &'a mut Random,
}

impl Test<'_> {
    fn run(&mut self) {
        self.known_signatures();
        self.table_entries();
        self.steps();
        self.all_lengths();
        self.long_slices();
        self.wrong_tables();
        self.parts_of_buffers();
        self.flipped_messages();
    }

    /// These hold the model to the specification as well as the library.
    fn known_signatures(&mut self) {
        let generator = self.width.generator;
        for &(width, seed, octets, expected) in &KNOWN {
            if width == generator.width {
                self.comparisons.compare(expected, signature(generator, seed, octets), || {
                    format!("model, {width} bits, seed {seed}, {}", octets_text(octets))
                });
                self.compare_forms(expected, seed, octets);
            }
        }
    }

    /// An entry is the signature of its index (000 D.3.3, D.3.5).
    fn table_entries(&mut self) {
        let bits = self.width.bits();
        for before in [0, self.width.ones()] {
            let guarded = (self.width.guarded_table)(before);
            for place in [0, guarded.len() - 1] {
                self.comparisons.compare(before, guarded[place], || {
                    format!("guard at {place} of the table, {bits} bits")
                });
            }
            for index in 0..self.width.entries() {
                let expected = signature(self.width.generator, 0, &[index as u8]);
                self.comparisons.compare(expected, guarded[1 + index], || {
                    format!("table entry {index}, {bits} bits, before {before:#x}")
                });
            }
        }
    }

    fn steps(&mut self) {
        let single_bits = (0..self.width.bits()).map(|power| 1 << power);
        let mut registers: Vec<u32> = single_bits.chain([0, self.width.ones()]).collect();
        registers.extend((0..300).map(|_| self.width.register(self.random)));
        for register in registers {
            for octet in 0..=u8::MAX {
                let Width { generator, step, step_by_shift, .. } = self.width;
                let expected = signature(*generator, register, &[octet]);
                for (form, step) in [("step", step), ("step by shift", step_by_shift)] {
                    self.comparisons.compare(expected, step(register, octet), || {
                        format!("{form}, {} bits, {register:#x}, octet {octet:#x}", generator.width)
                    });
                }
            }
        }
    }

    fn all_lengths(&mut self) {
        for length in 0..=300 {
            self.each_seed(&vec![0x00; length]);
            self.each_seed(&vec![0xFF; length]);
            for _ in 0..30 {
                let octets = self.random.octets(length);
                self.each_seed(&octets);
            }
        }
    }

    fn long_slices(&mut self) {
        for length in [1000, 4095, 4096, 4097, 65535, 65536, 65537] {
            let octets = self.random.octets(length);
            self.each_seed(&octets);
        }
    }

    fn each_seed(&mut self, octets: &[u8]) {
        for seed in self.width.seeds(self.random) {
            self.compare_forms(signature(self.width.generator, seed, octets), seed, octets);
        }
    }

    /// The library's signature in each form.
    fn forms(&self, seed: u32, octets: &[u8]) -> [(&'static str, u32); 3] {
        let Width { plain, by_shift, lent, .. } = self.width;
        [
            ("plain", plain(seed, octets)),
            ("by lent table", lent(&self.table, seed, octets)),
            ("by shift", by_shift(seed, octets)),
        ]
    }

    fn compare_forms(&mut self, expected: u32, seed: u32, octets: &[u8]) {
        let bits = self.width.bits();
        for (form, found) in self.forms(seed, octets) {
            self.comparisons.compare(expected, found, || {
                format!("signature {form}, {bits} bits, seed {seed:#x}, {}", octets_text(octets))
            });
        }
    }

    /// The lent form answers for any table, so it is held to the lookup and not to the division.
    fn wrong_tables(&mut self) {
        let bits = self.width.bits();
        for length in 0..=300 {
            let table = self.width.wrong_table(self.random);
            let octets = self.random.octets(length);
            for seed in self.width.seeds(self.random) {
                let expected = by_lookup(self.width, &table, seed, &octets);
                let found = (self.width.lent)(&table, seed, &octets);
                self.comparisons.compare(expected, found, || {
                    let octets = octets_text(&octets);
                    format!("wrong table {table:x?}, {bits} bits, seed {seed:#x}, {octets}")
                });
            }
        }
    }

    /// Slices that start at each address modulo 16. What stands around a slice changes nothing.
    fn parts_of_buffers(&mut self) {
        for start in 0..16 {
            for length in 0..=70 {
                let end = start + length;
                let mut buffer = self.random.octets(end + 16);
                let seed = self.width.register(self.random);
                let expected = signature(self.width.generator, seed, &buffer[start..end]);
                self.compare_forms(expected, seed, &buffer[start..end]);
                for place in (0..start).chain(end..end + 16) {
                    buffer[place] = !buffer[place];
                }
                self.compare_forms(expected, seed, &buffer[start..end]);
            }
        }
    }

    fn flipped_messages(&mut self) {
        for kind in &flips::KINDS {
            for _ in 0..10_000 {
                self.flipped_message(kind);
            }
        }
    }

    /// A message passes after flips exactly where the generator divides the flips.
    fn flipped_message(&mut self, kind: &flips::Kind) {
        let generator = self.width.generator;
        let length = 1 + self.random.below(32);
        let octets = self.random.octets(length);
        let seed = self.width.seeds(self.random)[self.random.below(4)];
        let message = Message { signature: signature(generator, seed, &octets), octets };
        let flips = (kind.choose)(self.random, generator, length * 8 + generator.width);
        let flipped = message.flipped(&flips, generator.width);

        let expected = divides(generator, &flips);
        let inputs = || {
            let (name, bits) = (kind.name, generator.width);
            let (before, after) = (message.text(), flipped.text());
            format!("passes after {name}, {bits} bits, seed {seed:#x}, {before}, now {after}")
        };
        for (form, found) in self.forms(seed, &flipped.octets) {
            let passes = found == flipped.signature;
            self.comparisons.compare(expected, passes, || format!("{form}, {}", inputs()));
            if let Some(known) = kind.passes {
                self.comparisons.compare(known, passes, || format!("known, {form}, {}", inputs()));
            }
        }
    }
}

fn every_short_step(comparisons: &mut Comparisons) {
    for register in 0..=u16::MAX {
        for octet in 0..=u8::MAX {
            let expected = by_shifts(register, octet);
            comparisons.compare(expected, library::step16(register, octet), || {
                format!("step, 16 bits, {register:#x}, octet {octet:#x}")
            });
            comparisons.compare(expected, library::step16_by_shift(register, octet), || {
                format!("step by shift, 16 bits, {register:#x}, octet {octet:#x}")
            });
        }
    }
}

fn main() {
    let mut comparisons = Comparisons::new("signature");
    let mut random = Random::from_arguments("signature");
    for width in &WIDTHS {
        let table = width.table();
        Test { width, table, comparisons: &mut comparisons, random: &mut random }.run();
    }
    every_short_step(&mut comparisons);
    comparisons.finish();
}

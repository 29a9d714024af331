// The library's judgement of a parameter block against the model's, over many blocks.
// Argument: the seed of the random inputs, or none.

mod as_model;
mod comparisons;
mod engines;
mod good_blocks;
#[path = "../bindings/rust/library.rs"]
mod library;
#[path = "../model/mod.rs"]
mod model;
mod random;

use as_model::numbers;
use comparisons::{octets_text, Comparisons};
use engines::{engine_text, ENGINES};
use good_blocks::{
    describe, good, most_other, process_bounds, Block, Kind, INPUT, KINDS, OUTPUT, VIOLATIONS,
};
use model::block::{judge, put, sign, signature, sizes, Answer, LENGTH};
use model::signature::{signature as listed_signature, SHORT};
use random::Random;
use std::collections::BTreeMap;

/// The answers that a block can have: number and offset.
const ANSWERS: [(u8, usize); 25] = [
    (0, 0),
    (1, 0),
    (2, 0),
    (3, 0),
    (4, 0),
    (5, 3),
    (5, 4),
    (5, 6),
    (5, 8),
    (5, 12),
    (5, 13),
    (5, 22),
    (5, 25),
    (5, 26),
    (5, 27),
    (5, 37),
    (5, 38),
    (5, 39),
    (5, 43),
    (5, 44),
    (6, 23),
    (6, 29),
    (6, 35),
    (8, 0),
    (12, 0),
];

fn library_answer(shift: bool, octets: &[u8], port: u8) -> Answer {
    let answer = library::judge_block(shift, octets, port);
    Answer {
        number: answer.number,
        offset: answer.offset.into(),
        parameters: numbers(&answer.params),
    }
}

fn signed(mut block: Block) -> Block {
    sign(&mut block);
    block
}

struct Test {
    comparisons: Comparisons,
    random: Random,
    /// How often each answer arose.
    arisen: BTreeMap<(u8, usize), u64>,
}

impl Test {
    fn run(&mut self) {
        self.model_signatures();
        self.known_blocks();
        for kind in KINDS {
            self.good_blocks(kind);
            self.process_data(kind);
            self.lengths_and_room(kind);
            self.every_octet(kind);
            self.every_bit(kind);
            self.violations(kind);
            self.several_violations(kind);
            self.wrong_signatures(kind);
            self.random_ends(kind);
            self.block_sizes(kind);
            self.ports(kind);
            self.parts_of_buffers(kind);
        }
        self.random_octets();
    }

    fn compare(&mut self, octets: &[u8], port: u8) -> (u8, usize) {
        let expected = judge(octets, port);
        for shift in ENGINES {
            self.comparisons.compare(&expected, &library_answer(shift, octets, port), || {
                format!("{}, port {port}, {}", engine_text(shift), octets_text(octets))
            });
        }
        let answer = (expected.number, expected.offset);
        *self.arisen.entry(answer).or_default() += 1;
        answer
    }

    /// Where the answer is known without the model, the model is held to it as well.
    fn compare_known(&mut self, known: (u8, usize), octets: &[u8], port: u8) {
        let answer = self.compare(octets, port);
        self.comparisons.compare(known, answer, || {
            format!("known answer, port {port}, {}", octets_text(octets))
        });
    }

    /// As it is, and with right signatures.
    fn compare_both(&mut self, block: Block, port: u8) {
        self.compare(&block, port);
        self.compare(&signed(block), port);
    }

    /// The model's two divisions.
    fn model_signatures(&mut self) {
        for length in 0..=14 {
            for _ in 0..100 {
                let octets = self.random.octets(length);
                let expected = listed_signature(SHORT, 0, &octets);
                self.comparisons.compare(expected, signature(&octets), || {
                    format!("model's signature, {}", octets_text(&octets))
                });
            }
        }
    }

    /// 01, "Numbers to try" and "The session program".
    fn known_blocks(&mut self) {
        let mut block = good(&mut self.random, Kind { port_mode: 50, protocol_mode: 1 });
        describe(&mut self.random, &mut block, INPUT, 1, 27);
        self.compare_known((0, 0), &signed(block), block[22]);
        describe(&mut self.random, &mut block, INPUT, 1, 28);
        self.compare_known((5, 38), &signed(block), block[22]);
        self.compare_known((2, 0), &[0; LENGTH], 1);
    }

    fn good_blocks(&mut self, kind: Kind) {
        for _ in 0..20_000 {
            let block = good(&mut self.random, kind);
            self.compare_known((0, 0), &block, block[22]);
        }
    }

    /// Each number of process octets beside each number of other octets that fits, both ways.
    fn process_data(&mut self, kind: Kind) {
        let [least, most] = process_bounds(kind.protocol_mode);
        for process in least..=most {
            for other in 0..=most_other(kind.protocol_mode, process) {
                for direction in [INPUT, OUTPUT] {
                    let mut block = good(&mut self.random, kind);
                    describe(&mut self.random, &mut block, direction, process, other);
                    self.compare_known((0, 0), &signed(block), block[22]);
                }
            }
        }
    }

    /// Each length up to 40 beside each number of other octets, the sum right, or off by one.
    fn lengths_and_room(&mut self, kind: Kind) {
        let safety_code = sizes(kind.protocol_mode).0 as u8;
        for (other_offset, offset) in [INPUT, OUTPUT] {
            let good = good(&mut self.random, kind);
            for other in 0..=64 {
                for octets in 0..=36 {
                    for length in [safety_code + octets, safety_code + octets - 1, octets] {
                        let mut block = good;
                        block[other_offset] = other;
                        block[offset..offset + 5].copy_from_slice(&[length, 0, octets, 0, 0]);
                        self.compare(&signed(block), block[22]);
                    }
                }
            }
        }
    }

    /// Each value of each octet.
    fn every_octet(&mut self, kind: Kind) {
        for _ in 0..20 {
            let good = good(&mut self.random, kind);
            for offset in 0..LENGTH {
                for octet in 0..=u8::MAX {
                    let mut block = good;
                    block[offset] = octet;
                    self.compare_both(block, good[22]);
                }
            }
        }
    }

    fn every_bit(&mut self, kind: Kind) {
        for _ in 0..100 {
            let good = good(&mut self.random, kind);
            for bit in 0..8 * LENGTH {
                let mut block = good;
                block[bit / 8] ^= 0x80 >> bit % 8;
                self.compare_both(block, good[22]);
            }
        }
    }

    fn violations(&mut self, kind: Kind) {
        for (number, offset, violate) in VIOLATIONS {
            for _ in 0..300 {
                let good = good(&mut self.random, kind);
                let mut block = good;
                violate(&mut self.random, &mut block);
                self.compare_known((number, offset), &block, good[22]);
                self.compare_known((number, offset), &signed(block), good[22]);
            }
        }
    }

    /// Two or three rules broken at once, at times one twice.
    fn several_violations(&mut self, kind: Kind) {
        for _ in 0..50_000 {
            let good = good(&mut self.random, kind);
            let mut block = good;
            for _ in 0..2 + self.random.below(2) {
                let (_, _, violate) = VIOLATIONS[self.random.below(VIOLATIONS.len())];
                violate(&mut self.random, &mut block);
            }
            self.compare_both(block, good[22]);
        }
    }

    /// Each choice of the three signatures changed after they were right.
    fn wrong_signatures(&mut self, kind: Kind) {
        for changed in [&[23, 29, 35][..], &[23, 29], &[23, 35], &[29, 35], &[23], &[29], &[35]] {
            for _ in 0..1000 {
                let mut block = good(&mut self.random, kind);
                for &offset in changed {
                    block[offset + self.random.below(2)] ^= 1 << self.random.below(8);
                }
                self.compare_known((6, changed[0]), &block, block[22]);
            }
        }
    }

    /// A good block whose octets from an offset on are random.
    fn random_ends(&mut self, kind: Kind) {
        for start in 0..LENGTH {
            for _ in 0..200 {
                let good = good(&mut self.random, kind);
                let mut block = good;
                for octet in &mut block[start..] {
                    *octet = self.random.octet();
                }
                self.compare_both(block, good[22]);
            }
        }
    }

    /// Each length: a good block cut or with octets after it, and random octets.
    fn block_sizes(&mut self, kind: Kind) {
        for size in 0..=300 {
            let good = good(&mut self.random, kind);
            let mut octets = self.random.octets(size);
            let any_port = self.random.octet();
            self.compare(&octets, any_port);
            let kept = size.min(LENGTH);
            octets[..kept].copy_from_slice(&good[..kept]);
            let known = if size == LENGTH { (0, 0) } else { (1, 0) };
            self.compare_known(known, &octets, good[22]);
            self.compare_known((8, 0), &octets, 0);
        }
    }

    /// Each port addressed, by each FSP_Port.
    fn ports(&mut self, kind: Kind) {
        for fsp_port in 0..=u8::MAX {
            let mut block = good(&mut self.random, kind);
            block[22] = fsp_port;
            sign(&mut block);
            for port in 0..=u8::MAX {
                self.compare(&block, port);
            }
        }
    }

    /// Slices that start at each address modulo 16. What stands around a slice changes nothing, the
    /// rest of a good block neither.
    fn parts_of_buffers(&mut self, kind: Kind) {
        for start in 0..16 {
            for size in 40..=56 {
                let good = good(&mut self.random, kind);
                let end = start + size;
                let mut buffer = self.random.octets(start + 72);
                buffer[start..start + LENGTH].copy_from_slice(&good);
                self.compare(&buffer[start..end], good[22]);
                for place in (0..start).chain(end..start + 72) {
                    buffer[place] = !buffer[place];
                }
                self.compare(&buffer[start..end], good[22]);
            }
        }
    }

    fn random_octets(&mut self) {
        for _ in 0..250_000 {
            let mut block = [0; LENGTH];
            block.fill_with(|| self.random.octet());
            let port = 1 + self.random.below(8) as u8;
            self.compare(&block, port);
            // As far as the port mode.
            put(&mut block, 0, 2, 0x8001);
            self.compare(&block, port);
        }
    }

    /// Prints how often each answer arose. Each has to.
    fn finish(mut self) {
        for (number, offset) in ANSWERS {
            let count = self.arisen.get(&(number, offset)).copied().unwrap_or(0);
            println!("block: number {number} at offset {offset}: {count} blocks");
            self.comparisons
                .compare(true, count > 0, || format!("number {number} at offset {offset} arose"));
        }
        self.comparisons.finish();
    }
}

fn main() {
    let mut test = Test {
        comparisons: Comparisons::new("block"),
        random: Random::from_arguments("block"),
        arisen: BTreeMap::new(),
    };
    test.run();
    test.finish();
}

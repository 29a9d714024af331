// Parameter blocks that keep every rule of document 01, and ways to break one rule.
#![allow(dead_code)]

use crate::model::block::{put, sign, sizes, LENGTH};
use crate::random::Random;

pub type Block = [u8; LENGTH];

#[derive(Clone, Copy)]
pub struct Kind {
    pub port_mode: u8,
    pub protocol_mode: u8,
}

pub const KINDS: [Kind; 4] = [
    Kind { port_mode: 49, protocol_mode: 1 },
    Kind { port_mode: 49, protocol_mode: 2 },
    Kind { port_mode: 50, protocol_mode: 1 },
    Kind { port_mode: 50, protocol_mode: 2 },
];

/// The elements that bind no other: offset, number of octets, lowest and highest value.
const FREE: [(usize, usize, u32, u32); 10] = [
    (3, 1, 0, 4),
    (5, 1, 0, 255),
    (6, 2, 1, 65535),
    (8, 4, 1, 16777215),
    (14, 4, 0, u32::MAX),
    (18, 4, 0, u32::MAX),
    (22, 1, 1, 8),
    (25, 1, 1, 255),
    (27, 2, 1, 65535),
    (31, 4, 0, u32::MAX),
];

/// The two directions: the offsets of the other data's length and of the SPDU's length.
pub const INPUT: (usize, usize) = (12, 38);
pub const OUTPUT: (usize, usize) = (13, 43);

pub fn good(random: &mut Random, kind: Kind) -> Block {
    let mut block = [0; LENGTH];
    put(&mut block, 0, 2, 0x8001);
    block[2] = kind.port_mode;
    block[4] = if random.flag() { 5 } else { 0 };
    block[26] = kind.protocol_mode;
    block[37] = 1;
    for (offset, count, low, high) in FREE {
        put(&mut block, offset, count, between(random, low, high));
    }
    for direction in [INPUT, OUTPUT] {
        let [low, high] = process_bounds(kind.protocol_mode);
        let process = between(random, low, high);
        let other = between(random, 0, most_other(kind.protocol_mode, process));
        describe(random, &mut block, direction, process, other);
    }
    sign(&mut block);
    block
}

/// The least and the most process octets: an SPDU has at least 5 octets.
pub fn process_bounds(protocol_mode: u8) -> [u32; 2] {
    let (safety_code, most) = sizes(protocol_mode);
    [5u32.saturating_sub(safety_code), most]
}

/// The most octets of other data that fit beside an SPDU.
pub fn most_other(protocol_mode: u8, process: u32) -> u32 {
    32 - sizes(protocol_mode).0 - process
}

/// Writes the elements of one direction, the process octets shared out among bits and integers.
pub fn describe(
    random: &mut Random,
    block: &mut Block,
    (other_offset, offset): (usize, usize),
    process: u32,
    other: u32,
) {
    let int32 = between(random, 0, process / 4);
    let int16 = between(random, 0, (process - 4 * int32) / 2);
    let octets = process - 4 * int32 - 2 * int16;
    let bits = between(random, 0, 8 * octets);
    let length = sizes(block[26]).0 + process;
    block[other_offset] = other as u8;
    block[offset..offset + 5]
        .copy_from_slice(&[length, bits, octets, int16, int32].map(|number| number as u8));
}

/// A number in a range, its ends more often than the others.
pub fn between(random: &mut Random, low: u32, high: u32) -> u32 {
    match random.below(4) {
        0 => low,
        1 => high,
        _ => low + random.below((high - low) as usize + 1) as u32,
    }
}

/// Breaks one rule and no other, in a block that keeps them all.
pub type Break = fn(&mut Random, &mut Block);

/// Number, offset, and a way to earn them with right signatures.
pub const VIOLATIONS: [(u8, usize, Break); 31] = [
    (2, 0, |random, block| put(block, 0, 2, between(random, 0, 0x8000))),
    (2, 0, |random, block| put(block, 0, 2, between(random, 0x8002, 0xFFFF))),
    (3, 0, |random, block| put(block, 2, 1, between(random, 5, 48))),
    (3, 0, |random, block| put(block, 2, 1, between(random, 52, 96))),
    (3, 0, |random, block| put(block, 2, 1, between(random, 97, 255))),
    (4, 0, |random, block| put(block, 2, 1, between(random, 0, 4))),
    (4, 0, |_, block| block[2] = 51),
    (5, 3, |random, block| put(block, 3, 1, between(random, 5, 255))),
    (5, 4, |random, block| put(block, 4, 1, between(random, 1, 4))),
    (5, 4, |random, block| put(block, 4, 1, between(random, 6, 255))),
    (5, 6, |_, block| put(block, 6, 2, 0)),
    (5, 8, |_, block| put(block, 8, 4, 0)),
    (5, 8, |random, block| put(block, 8, 4, between(random, 16777216, u32::MAX))),
    (5, 12, |random, block| block[12] |= between(random, 1, 3) as u8 * 64),
    (5, 13, |random, block| block[13] |= between(random, 1, 3) as u8 * 64),
    (5, 22, |_, block| block[22] = 0),
    (5, 25, |_, block| block[25] = 0),
    (5, 26, |_, block| block[26] = 0),
    (5, 26, |random, block| put(block, 26, 1, between(random, 3, 255))),
    (5, 27, |_, block| put(block, 27, 2, 0)),
    (5, 37, |_, block| block[37] = 0),
    (5, 37, |random, block| put(block, 37, 1, between(random, 2, 255))),
    (5, 38, |random, block| wrong_length(random, block, INPUT)),
    (5, 38, |random, block| no_room(random, block, INPUT)),
    (5, 38, |random, block| too_many(random, block, INPUT)),
    (5, 39, |_, block| block[39] = 8 * block[40] + 1),
    (5, 43, |random, block| wrong_length(random, block, OUTPUT)),
    (5, 43, |random, block| no_room(random, block, OUTPUT)),
    (5, 43, |random, block| too_many(random, block, OUTPUT)),
    (5, 44, |_, block| block[44] = 8 * block[45] + 1),
    (12, 0, |random, block| block[22] = another(random, block[22])),
];

/// A length that is not the sum of what it counts.
fn wrong_length(random: &mut Random, block: &mut Block, (_, offset): (usize, usize)) {
    block[offset] = another(random, block[offset]);
}

/// More octets of other data than fit beside the SPDU, by one or by all that bits 0 to 5 can say.
fn no_room(random: &mut Random, block: &mut Block, (other_offset, offset): (usize, usize)) {
    let least = 33u32.saturating_sub(block[offset].into());
    block[other_offset] = between(random, least, 63) as u8;
}

/// More process octets than the protocol mode takes, counted right and with no other data.
fn too_many(random: &mut Random, block: &mut Block, direction: (usize, usize)) {
    let (safety_code, most) = sizes(block[26]);
    let process = between(random, most + 1, 32 - safety_code);
    describe(random, block, direction, process, 0);
}

/// 1 to 255, but not the given octet, which is not 0.
fn another(random: &mut Random, octet: u8) -> u8 {
    let value = between(random, 1, 254) as u8;
    value + u8::from(value >= octet)
}

// Ways to choose the bits to flip among those of a message and its signature.
// A list of flips is the polynomial of demand 3: one coefficient for each bit, in division order.
#![allow(dead_code)]

use crate::model::signature::{add, divisor, Generator};
use crate::random::Random;

pub struct Kind {
    pub name: &'static str,
    /// Flips for a message whose length, signature included, is the given number of bits.
    pub choose: fn(&mut Random, Generator, usize) -> Vec<bool>,
    /// Whether all messages pass after such flips, or none, where no division is needed to tell.
    pub passes: Option<bool>,
}

pub const KINDS: [Kind; 8] = [
    Kind { name: "no flip", choose: none, passes: Some(true) },
    Kind { name: "any flips", choose: any, passes: None },
    Kind { name: "few flips", choose: few, passes: None },
    Kind { name: "a burst", choose: burst, passes: Some(false) },
    // 000 D.1: 1 + x divides the generator, so each multiple has an even number of terms.
    Kind { name: "an odd number of flips", choose: odd, passes: Some(false) },
    Kind { name: "the shifted generator", choose: shifted_generator, passes: Some(true) },
    Kind { name: "a multiple of the generator", choose: multiple, passes: Some(true) },
    Kind { name: "a multiple and one flip", choose: multiple_and_one, passes: Some(false) },
];

fn none(_: &mut Random, _: Generator, length: usize) -> Vec<bool> {
    vec![false; length]
}

fn any(random: &mut Random, _: Generator, length: usize) -> Vec<bool> {
    (0..length).map(|_| random.flag()).collect()
}

fn few(random: &mut Random, _: Generator, length: usize) -> Vec<bool> {
    let mut flips = vec![false; length];
    for _ in 0..1 + random.below(8) {
        flips[random.below(length)] = true;
    }
    flips
}

/// At least one flip, all within as many neighbouring bits as the signature has.
fn burst(random: &mut Random, generator: Generator, length: usize) -> Vec<bool> {
    let mut flips = vec![false; length];
    let start = random.below(length - generator.width + 1);
    for flip in &mut flips[start..start + generator.width] {
        *flip = random.flag();
    }
    flips[start + random.below(generator.width)] = true;
    flips
}

fn odd(random: &mut Random, generator: Generator, length: usize) -> Vec<bool> {
    let mut flips = any(random, generator, length);
    if flips.iter().filter(|&&flip| flip).count() % 2 == 0 {
        flips[random.below(length)] ^= true;
    }
    flips
}

fn shifted_generator(random: &mut Random, generator: Generator, length: usize) -> Vec<bool> {
    let mut flips = vec![false; length];
    let start = random.below(length - generator.width);
    add(&mut flips[start..], &divisor(generator));
    flips
}

fn multiple(random: &mut Random, generator: Generator, length: usize) -> Vec<bool> {
    let mut flips = vec![false; length];
    for _ in 0..2 + random.below(8) {
        add(&mut flips, &shifted_generator(random, generator, length));
    }
    flips
}

fn multiple_and_one(random: &mut Random, generator: Generator, length: usize) -> Vec<bool> {
    let mut flips = multiple(random, generator, length);
    flips[random.below(length)] ^= true;
    flips
}

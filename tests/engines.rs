// What signs: the tables, or the bit shift loop, as a call's `shift` says. Each comparison of a call that takes it is made under both.
#![allow(dead_code)]

use crate::library::Tables;
use crate::random::Random;

/// What `shift` can be.
pub const ENGINES: [bool; 2] = [false, true];

pub fn engine_text(shift: bool) -> &'static str {
    match shift {
        false => "by tables",
        true => "by shift",
    }
}

/// What a call gives under each engine, beside the engine's text.
pub fn by_engines<T>(call: impl Fn(bool) -> T) -> [(&'static str, T); 2] {
    ENGINES.map(|shift| (engine_text(shift), call(shift)))
}

/// Tables for a call to be lent: the right ones; with `shift`, which reads none, random ones, so that a read would show.
pub fn lent_tables(random: &mut Random, shift: bool) -> Tables {
    match shift {
        false => Tables::new(),
        true => Tables {
            short: std::array::from_fn(|_| random.number() as u16),
            long: std::array::from_fn(|_| random.number() as u32),
        },
    }
}

// The independent model: what the specification says, by other methods than the library's.
// A program may use only some of it.
#![allow(dead_code)]

pub mod bench;
pub mod block;
pub mod histogram;
pub mod machines;
pub mod session;
pub mod signature;
pub mod spdu;

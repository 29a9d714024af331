// Sessions as lines of text. `make` turns lines into a session's octets, `show` turns octets into lines; reading those lines gives
// the same octets again, for every session, also one that is torn or malformed.
#![allow(dead_code)]

pub mod ends;
pub mod fields;
pub mod make;
pub mod show;
pub mod stream;
pub mod why;
pub mod words;

// The time to read an SPDU, its signature checked and its fields taken apart, as a ratio to that of plain C that does the same, on the
// same input in one run; in mode 2 to C with a table of 256 entries, and to C that works half octets from 16. The tables are lent to the library; it takes the parameters by value, and the copy is in its time.
// Argument: the seed of the random inputs, or none.

#[path = "../../bindings/rust/library.rs"]
mod library;
#[path = "../random.rs"]
mod random;

use library::{Params, Request, Response, Tables};
use random::Random;
use std::time::Instant;

/// The library signs by its tables, as C does.
const SHIFT: bool = false;
const SPDUS: usize = 4096;
const ROUNDS: usize = 300;
const PORT: u8 = 3;

/// The octets of an SPDU, and the protocol mode. No block has 31 octets in mode 1; in mode 2 the least is 6.
const FORMATS: [(u8, u8); 6] = [(5, 1), (7, 1), (31, 1), (6, 2), (7, 2), (31, 2)];

extern "C" {
    fn reference_read_response(params: &Params, octets: *const u8, length: usize) -> Response;
    fn reference_read_request(params: &Params, octets: *const u8, length: usize) -> Request;
    fn halves_read_response(params: &Params, octets: *const u8, length: usize) -> Response;
    fn halves_read_request(params: &Params, octets: *const u8, length: usize) -> Request;
}

/// Random SPDUs of the port one behind the other. The signature of every eighth is random too.
fn spdus(random: &mut Random, n: u8, mode: u8) -> Vec<u8> {
    let width = if mode == 1 { 2 } else { 4 };
    let mut octets = Vec::new();
    for place in 0..SPDUS {
        let mut contents = random.octets(usize::from(n) - width);
        let port = contents.len() - 2;
        contents[port] = PORT;
        let signature = match (place % 8, mode) {
            (0, _) => random.number() as u32,
            (_, 1) => library::signature16(1, &contents).max(1).into(),
            _ => library::signature32(1, &contents).max(1),
        };
        octets.extend(contents);
        octets.extend(&signature.to_be_bytes()[4 - width..]);
    }
    octets
}

/// The fields as one number.
fn told(count: u8, marks: [bool; 6]) -> u64 {
    marks.into_iter().fold(count.into(), |fields, mark| fields << 1 | u64::from(mark))
}

fn response_told(read: Response) -> u64 {
    let Response { sd_set, dcomm_err, dtimeout, port_holds, signature_holds, all_zero, .. } = read;
    let marks = [sd_set, dcomm_err, dtimeout, port_holds, signature_holds, all_zero];
    told(read.dcount_i, marks)
}

fn request_told(read: Request) -> u64 {
    let Request { set_sd, chf_ack_req, port_holds, signature_holds, all_zero, .. } = read;
    let marks = [false, set_sd, chf_ack_req, port_holds, signature_holds, all_zero];
    told(read.mcount, marks)
}

/// Each SPDU in a call of its own; a sum over what was read.
fn one_by_one(n: u8, octets: &[u8], read: impl Fn(&[u8]) -> u64) -> u64 {
    octets
        .chunks_exact(n.into())
        .map(read)
        .fold(0, |sum: u64, said| sum.wrapping_mul(3).wrapping_add(said))
}

/// The least time for an SPDU over all rounds, in nanoseconds, of ours, of C's and of C's by half
/// octets: whatever else the machine does can only add to it.
fn measure(
    ours: impl Fn() -> u64,
    reference: impl Fn() -> u64,
    halves: impl Fn() -> u64,
) -> [f64; 3] {
    let mut least = [f64::MAX; 3];
    for _ in 0..ROUNDS {
        let found = time(&mut least[0], &ours);
        let expected = time(&mut least[1], &reference);
        let by_halves = time(&mut least[2], &halves);
        if found != expected || by_halves != expected {
            println!("speed: other fields are read than by C");
            std::process::exit(1);
        }
    }
    least
}

fn time(least: &mut f64, read: impl Fn() -> u64) -> u64 {
    let start = Instant::now();
    let sum = read();
    *least = least.min(start.elapsed().as_nanos() as f64 / SPDUS as f64);
    sum
}

fn shown(n: u8, mode: u8, name: &str, [ours, reference, halves]: [f64; 3]) {
    print!("{n:>6} {mode:>5}  {name:<9} {ours:>7.1} {:>12.2} {reference:>6.1}", ours / reference);
    match mode {
        1 => println!(),
        _ => println!(" {:>11.2} {halves:>6.1}", ours / halves),
    }
}

fn main() {
    let mut random = Random::from_arguments("speed");
    let tables = Tables::new();

    println!("octets  mode  read      ns ours  to C of 256   ns C  to C of 16   ns C");
    for (n, mode) in FORMATS {
        let params = Params {
            fsp_port: PORT,
            fsp_prot_mode: mode,
            spdu_in_length: n,
            spdu_out_length: n,
            ..Params::default()
        };
        let octets = spdus(&mut random, n, mode);
        let response = measure(
            || one_by_one(n, &octets, |s| response_told(tables.read_response(SHIFT, params, s))),
            || {
                one_by_one(n, &octets, |s| {
                    let read = unsafe { reference_read_response(&params, s.as_ptr(), s.len()) };
                    response_told(read)
                })
            },
            || {
                one_by_one(n, &octets, |s| {
                    let read = unsafe { halves_read_response(&params, s.as_ptr(), s.len()) };
                    response_told(read)
                })
            },
        );
        let request = measure(
            || one_by_one(n, &octets, |s| request_told(tables.read_request(SHIFT, params, s))),
            || {
                one_by_one(n, &octets, |s| {
                    let read = unsafe { reference_read_request(&params, s.as_ptr(), s.len()) };
                    request_told(read)
                })
            },
            || {
                one_by_one(n, &octets, |s| {
                    let read = unsafe { halves_read_request(&params, s.as_ptr(), s.len()) };
                    request_told(read)
                })
            },
        );
        shown(n, mode, "response", response);
        shown(n, mode, "request", request);
    }
}

// A session for `portbench` of so many octets, by standard output: eight ports that start up and then answer in time, each response passing.
// Arguments: the protocol mode and the process octets in, as `2:25`; the least number of octets; the seed, or none. The first may be
// several with commas between, as `1:3,2:25`: each is for as many ports, the first for the lowest, and their responses alternate.

#[path = "../../tools/lines/mod.rs"]
mod lines;
#[path = "../../model/mod.rs"]
mod model;
#[path = "../random.rs"]
mod random;

use lines::make::make;
use model::session::{MARK, SPDU};
use model::spdu::{Direction, Format, Values};
use random::Random;
use std::io::{BufWriter, Write};

const PORTS: usize = 8;
const WATCHDOG: u32 = 100;
/// Different process values, of which each SPDU has one.
const VALUES: usize = 64;
/// After these MCount is 1 at every port, and values are released.
const START_UP: u32 = 8;

/// How a port is set.
#[derive(Clone, Copy)]
struct Kind {
    mode: u8,
    process: usize,
}

fn number(word: &str) -> usize {
    word.parse().expect("a decimal number")
}

fn kinds(words: &str) -> Vec<Kind> {
    words
        .split(',')
        .map(|word| word.split_once(':').expect("a mode and process octets, as 2:25"))
        .map(|(mode, process)| Kind { mode: number(mode) as u8, process: number(process) })
        .collect()
}

fn main() {
    let words: Vec<String> = std::env::args().skip(1).collect();
    let (kinds, octets, seed) = match &words[..] {
        [first, octets] => (kinds(first), number(octets), 1),
        [first, octets, seed] => (kinds(first), number(octets), number(seed)),
        _ => panic!("modes with process octets and the number of octets are expected"),
    };
    assert!(PORTS % kinds.len() == 0, "as many ports of each mode and size are expected");
    let each = PORTS / kinds.len();
    let ports: Vec<(u8, Kind)> = (0..PORTS).map(|i| (i as u8 + 1, kinds[i / each])).collect();
    let turns: Vec<usize> = (0..each).flat_map(|i| (i..PORTS).step_by(each)).collect();

    let mut random = Random::from_seed(seed as u64);
    let start = make(&start_up(&ports)).expect("lines of a session");
    let spdus: Vec<_> = ports.iter().map(|(port, kind)| spdus(&mut random, *port, *kind)).collect();
    let mut out = BufWriter::new(std::io::stdout());
    out.write_all(&start).expect("output");
    let mut written = start.len();
    let mut at = [START_UP * 10; PORTS];
    for cycle in 0.. {
        if written >= octets {
            break;
        }
        for &i in &turns {
            at[i] = at[i].wrapping_add(random.below(WATCHDOG as usize + 1) as u32);
            let spdu = &spdus[i][cycle % 7][random.below(VALUES)];
            let (port, length) = (ports[i].0, spdu.len() as u8);
            let head = [&MARK[..], &[SPDU, port], &at[i].to_be_bytes(), &[length]].concat();
            out.write_all(&head).and_then(|()| out.write_all(spdu)).expect("output");
            written += head.len() + spdu.len();
        }
    }
    out.flush().expect("output");
}

fn start_up(ports: &[(u8, Kind)]) -> String {
    let mut text = String::new();
    for (port, Kind { mode, process }) in ports {
        text +=
            &format!("block port {port} at 0 mode {mode} watchdog {WATCHDOG} in {process} out 1\n");
        text += &format!("response port {port} after 10 ms\n").repeat(START_UP as usize);
    }
    text
}

/// For each count from 6 down to 0, which mirror 1 to 7, a port's SPDUs with different process values.
fn spdus(random: &mut Random, port: u8, Kind { mode, process }: Kind) -> Vec<Vec<Vec<u8>>> {
    let length = process + if mode == 1 { 4 } else { 6 };
    let format = Format { direction: Direction::Response, mode, port, length: length as u8 };
    let mut spdu = |count| {
        let values = Values { responded: true, count, marks: [false; 3] };
        format.build(&values, &random.octets(process), &vec![0; length]).1
    };
    (0..7).rev().map(|count| (0..VALUES).map(|_| spdu(count)).collect()).collect()
}

// Sessions fed to the library by each engine, whole, in chunks and cut at every octet, against the model. As lines of text: every session, also
// one that is torn or malformed, comes back from the lines that show it. What the model prints is held to document 01's examples, to those in
// examples/, and to the codes among the lines.
// Argument: the seed of the random inputs, or none.

mod as_model;
mod comparisons;
mod engines;
mod fed_sessions;
mod good_blocks;
#[path = "../bindings/rust/library.rs"]
mod library;
#[path = "../tools/lines/mod.rs"]
mod lines;
#[path = "../model/mod.rs"]
mod model;
mod random;
mod random_sessions;

use comparisons::{octets_text, Comparisons};
use fed_sessions::Feeder;
use lines::ends::ROWS;
use lines::make::make;
use lines::show::show;
use model::session::printed;
use model::signature::{signature, signature_by_numbers, LONG, SHORT};
use random::Random;
use random_sessions::{damage, long_session, move_clock, record, session};
use std::io::{ErrorKind, Read};
use std::path::PathBuf;

/// Sessions that are fed as they are, with another start of the clock, and damaged so many times. Their records are fewer than the first
/// number mostly, else than the second.
const FED: usize = 5000;
const FED_DAMAGES: usize = 4;
const FED_RECORDS: [usize; 2] = [24, 60];
/// Octets that are no session, and sessions that a program can't hold in one chunk.
const ANY: usize = 300;
const VERY_LONG: usize = 3;
/// Sessions that are cut at every octet, every second one damaged; their records are fewer than so many.
const FED_CUT: usize = 300;
const FED_CUT_RECORDS: usize = 10;
/// Sessions that are shown as lines, and damaged.
const SHOWN: usize = 120;
const SHOWN_RECORDS: usize = 30;
const SHOWN_DAMAGES: usize = 4;
/// Sessions that are cut at every octet and shown, and their records.
const SHOWN_CUT: usize = 4;
const SHOWN_CUT_RECORDS: usize = 10;

fn main() {
    let random = Random::from_arguments("sessions");
    let mut feeder = Feeder::new(random, Comparisons::new("sessions"));
    divisions(&mut feeder);
    examples_of_01(&mut feeder);
    examples(&mut feeder);
    show_all(&mut feeder);
    feed_all(&mut feeder);
    finish(feeder);
}

/// The model's two divisions.
fn divisions(feeder: &mut Feeder) {
    for round in 0..2000 {
        let octets = feeder.random.octets(round % 40);
        let seed = feeder.random.number() as u32 >> feeder.random.below(32);
        for generator in [SHORT, LONG] {
            let seed = seed >> (32 - generator.width);
            feeder.comparisons.compare(
                signature(generator, seed, &octets),
                signature_by_numbers(generator, seed, &octets),
                || format!("width {}, seed {seed}, {}", generator.width, octets_text(&octets)),
            );
        }
    }
}

fn examples_of_01(feeder: &mut Feeder) {
    let examples: [(Vec<u8>, &str); 3] = [
        (record(1, 1, 0, &[0; 48]), "r 1 code 2\nrecords 1 refused 1\n"),
        (vec![0x53, 0x4C, 3], "r 1 code 13\nrecords 0 refused 1\n"),
        (vec![], "records 0 refused 0\n"),
    ];
    for (session, text) in examples {
        let inputs = || octets_text(&session);
        feeder.comparisons.compare(text, printed(&session).as_str(), inputs);
        for found in feeder.feed(&session, 0) {
            feeder.comparisons.compare(text, found.as_str(), inputs);
        }
        compare_lines(&mut feeder.comparisons, &session);
    }
}

/// Lines, the session made from them, and what is printed.
fn examples(feeder: &mut Feeder) {
    let files = std::fs::read_dir("examples").expect("the directory of examples");
    let mut lines: Vec<PathBuf> = files.map(|file| file.expect("a file").path()).collect();
    lines.retain(|path| path.extension().map_or(false, |extension| extension == "txt"));
    lines.sort();
    feeder.comparisons.compare(false, lines.is_empty(), || "no examples".to_string());
    for path in lines {
        let read = |extension| std::fs::read(path.with_extension(extension)).expect("an example");
        let name = || path.display().to_string();
        let text = String::from_utf8(read("txt")).expect("lines of text");
        let session = read("session");
        let out = read("out");
        feeder.comparisons.compare(Ok(&session), make(&text).as_ref(), name);
        feeder.comparisons.compare(&out[..], printed(&session).as_bytes(), name);
        for found in feeder.feed(&session, 0) {
            feeder.comparisons.compare(&out[..], found.as_bytes(), name);
        }
        compare_lines(&mut feeder.comparisons, &session);
    }
}

fn show_all(feeder: &mut Feeder) {
    let Feeder { random, comparisons, .. } = feeder;
    for _ in 0..SHOWN {
        let mut session = session(random, SHOWN_RECORDS);
        compare_lines(comparisons, &session);
        compare_pieces(comparisons, &session);
        for _ in 0..SHOWN_DAMAGES {
            damage(random, &mut session);
            compare_lines(comparisons, &session);
        }
    }
    for _ in 0..SHOWN_CUT {
        let session = session(random, SHOWN_CUT_RECORDS);
        for end in 0..session.len() {
            compare_lines(comparisons, &session[..end]);
        }
    }
}

/// The lines that show a session.
fn shown(session: &[u8]) -> String {
    let mut lines = Vec::new();
    show(session, &mut lines).expect("octets in memory");
    String::from_utf8(lines).expect("lines of text")
}

/// An input that brings a random number of octets at a time, and is interrupted now and then.
struct Pieces<'a> {
    rest: &'a [u8],
    random: Random,
}

impl Read for Pieces<'_> {
    fn read(&mut self, buffer: &mut [u8]) -> std::io::Result<usize> {
        let count = match self.random.below(8) {
            0 => return Err(ErrorKind::Interrupted.into()),
            1 => buffer.len(),
            _ => buffer.len().min(1 + self.random.below(300)),
        };
        self.rest.read(&mut buffer[..count])
    }
}

/// However the octets come, the lines are the same.
fn compare_pieces(comparisons: &mut Comparisons, session: &[u8]) {
    let mut lines = Vec::new();
    let pieces = Pieces { rest: session, random: Random::from_seed(session.len() as u64) };
    show(pieces, &mut lines).expect("octets in memory");
    comparisons.compare(shown(session).as_bytes(), &lines[..], || octets_text(session));
}

fn compare_lines(comparisons: &mut Comparisons, session: &[u8]) {
    let lines = shown(session);
    let inputs = || format!("{}\n{lines}", octets_text(session));
    comparisons.compare(Ok(session.to_vec()), make(&lines), inputs);
    comparisons.compare(codes(session), shown_codes(&lines), inputs);
    comparisons.compare(None, lines.lines().find(|line| lacks_reason(line)), inputs);
}

/// Safe values for which the comment has no reason, or a fault of no record.
fn lacks_reason(line: &str) -> bool {
    line.ends_with("safe values: ") || line.contains(" in record 0")
}

/// The refusals that are printed, each as `N code C`.
fn codes(session: &[u8]) -> Vec<String> {
    printed(session)
        .lines()
        .filter_map(|line| line.strip_prefix("r "))
        .map(str::to_string)
        .collect()
}

/// The refusals in the comments of a shown session.
fn shown_codes(lines: &str) -> Vec<String> {
    let comments = lines.lines().filter_map(|line| line.split("# r ").nth(1));
    let refused = comments.filter(|comment| comment.contains(" code "));
    refused.filter_map(|comment| comment.split(',').next()).map(str::to_string).collect()
}

fn feed_all(feeder: &mut Feeder) {
    for _ in 0..FED {
        let most = FED_RECORDS[usize::from(feeder.random.below(10) == 0)];
        let records = feeder.random.below(most);
        let mut session = session(&mut feeder.random, records);
        let texts = feeder.feed(&session, 0);
        move_clock(&mut feeder.random, &mut session);
        let moved = feeder.feed(&session, 0);
        for (text, moved) in texts.into_iter().zip(moved) {
            feeder.comparisons.compare(text, moved, || octets_text(&session));
        }
        for _ in 0..FED_DAMAGES {
            damage(&mut feeder.random, &mut session);
            let earlier = earlier(&mut feeder.random);
            feeder.feed(&session, earlier);
        }
    }
    for _ in 0..ANY {
        let size = feeder.random.below(600);
        let octets = feeder.random.octets(size);
        feeder.feed(&octets, 0);
    }
    for _ in 0..VERY_LONG {
        let session = long_session(&mut feeder.random);
        feeder.feed(&session, 0);
        compare_lines(&mut feeder.comparisons, &session);
        compare_pieces(&mut feeder.comparisons, &session);
    }
    for place in 0..FED_CUT {
        let records = feeder.random.below(FED_CUT_RECORDS);
        let mut session = session(&mut feeder.random, records);
        if place % 2 == 1 {
            damage(&mut feeder.random, &mut session);
        }
        feeder.feed_cut(&session);
    }
}

/// Mostly none; else any number, or so many that the counts come to their end.
fn earlier(random: &mut Random) -> u64 {
    match random.below(8) {
        0 => random.number() >> random.below(64),
        1 => u64::MAX - random.below(20) as u64,
        _ => 0,
    }
}

/// Prints how often each code and each stop was given and each row of Table 38 acted. Each that a session can reach has to be; 7 and 11
/// are not among the codes.
fn finish(mut feeder: Feeder) {
    let Feeder { sessions, cuts, calls, samples, .. } = feeder;
    println!(
        "sessions: {sessions} fed whole and in chunks, {cuts} cuts, by each engine; {calls} calls"
    );
    println!("sessions: {samples} samples");
    for (code, &count) in feeder.codes.iter().enumerate().skip(1) {
        println!("sessions: code {code} given {count} times");
        feeder.comparisons.compare(![7, 11].contains(&code), count > 0, || format!("code {code}"));
    }
    for (stop, &count) in feeder.stops.iter().enumerate() {
        println!("sessions: stop {stop} given {count} times");
        feeder.comparisons.compare(true, count > 0, || format!("stop {stop}"));
    }
    for row in ROWS {
        let count = feeder.rows[row];
        println!("sessions: T{row} acted {count} times");
        feeder.comparisons.compare(true, count > 0, || format!("T{row}"));
    }
    feeder.comparisons.finish();
}

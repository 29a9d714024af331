// A session program against the model, by standard input: a long session of the longest records, then random ones, damaged in random
// ways. The program has to print what the model prints, end by itself within a time, and with status 0.
// Arguments: the program, which may be several words; how many random sessions; the seed, or none.

mod good_blocks;
#[path = "../tools/lines/mod.rs"]
mod lines;
#[path = "../model/mod.rs"]
mod model;
mod random;
mod random_sessions;

use model::session::printed;
use random::Random;
use random_sessions::{damage, full_records, long_session, session};
use std::fs::File;
use std::io::Write;
use std::process::{exit, Child, ChildStdin, Command, Stdio};
use std::time::{Duration, Instant};

const TIME: Duration = Duration::from_secs(20);
const DIRECTORY: &str = "target/fuzz";
/// It stops at so many.
const SHOWN_DIFFERENCES: usize = 5;

fn main() {
    let arguments: Vec<String> = std::env::args().skip(1).collect();
    let (program, count, seed) = match &arguments[..] {
        [program, count] => (program, count, "1"),
        [program, count, seed] => (program, count, seed.as_str()),
        _ => stop("the program, a count and at most a seed are expected"),
    };
    let number = |word: &str| word.parse().unwrap_or_else(|_| stop("a count is a decimal number"));
    std::fs::create_dir_all(DIRECTORY).expect("a directory for the inputs");
    println!("fuzz_session: seed {seed}");
    let mut random = Random::from_seed(number(seed));
    let count = number(count);
    let mut compared = Compared { program, sessions: 0, differences: 0 };
    let full = full_records(&mut random);
    compared.one(&full, slowly(&full));
    compared.one(&full, Way::File);
    for _ in 0..count {
        let session = damaged_session(&mut random);
        let way = any_way(&session, &mut random);
        compared.one(&session, way);
    }
    let Compared { sessions, differences, .. } = compared;
    println!("fuzz_session: {sessions} sessions, {differences} differ");
    if differences > 0 {
        exit(1);
    }
}

struct Compared<'a> {
    program: &'a str,
    sessions: u64,
    differences: usize,
}

impl Compared<'_> {
    fn one(&mut self, session: &[u8], way: Way) {
        if self.differences == SHOWN_DIFFERENCES {
            return;
        }
        self.sessions += 1;
        let found = run(self.program, session, way);
        let expected = Ok(printed(session));
        if found != expected {
            self.differences += 1;
            report(self.sessions, session, &expected, &found);
        }
    }
}

fn stop(wrong: &str) -> ! {
    eprintln!("fuzz_session: {wrong}");
    exit(2);
}

/// Short ones mostly, since each is a run of the program. Every fourth is not damaged, and a few are any octets.
fn damaged_session(random: &mut Random) -> Vec<u8> {
    let mut session = match random.below(120) {
        0 => long_session(random),
        1..=3 => {
            let size = random.below(600);
            random.octets(size)
        }
        4..=12 => session(random, 400),
        _ => {
            let records = random.below(40);
            session(random, records)
        }
    };
    for _ in 0..random.below(4) {
        damage(random, &mut session);
    }
    session
}

/// How a program gets a session: as a file, or through a pipe in pieces with a pause before each, so that a record can arrive in parts.
enum Way {
    File,
    Pipe { pieces: Vec<Vec<u8>>, pause: Duration },
}

fn any_way(session: &[u8], random: &mut Random) -> Way {
    if random.flag() {
        Way::Pipe { pieces: pieces(session, random), pause: Duration::ZERO }
    } else {
        Way::File
    }
}

/// No piece is a whole number of the longest records; the pause lets a read bring one piece.
fn slowly(session: &[u8]) -> Way {
    let pieces = session.chunks(601).map(<[u8]>::to_vec).collect();
    Way::Pipe { pieces, pause: Duration::from_millis(1) }
}

/// What the program prints; or why there is no such text.
fn run(program: &str, session: &[u8], way: Way) -> Result<String, String> {
    let (input, output) = (format!("{DIRECTORY}/input"), format!("{DIRECTORY}/output"));
    std::fs::write(&input, session).expect("the session's file");
    let stdin = match way {
        Way::File => File::open(&input).unwrap().into(),
        Way::Pipe { .. } => Stdio::piped(),
    };
    let mut words = program.split_whitespace();
    let mut child = Command::new(words.next().unwrap_or_else(|| stop("no program is named")))
        .args(words)
        .stdin(stdin)
        .stdout(File::create(&output).expect("the output's file"))
        .spawn()
        .unwrap_or_else(|error| stop(&format!("{program}: {error}")));
    let writer = child.stdin.take().map(|pipe| std::thread::spawn(move || write(pipe, way)));
    let ended = wait(&mut child);
    if let Some(writer) = writer {
        writer.join().expect("the pipe's writer");
    }
    ended?;
    let text = std::fs::read(&output).expect("the output's file");
    String::from_utf8(text).map_err(|_| "the output is not text".to_string())
}

fn write(mut pipe: ChildStdin, way: Way) {
    let Way::Pipe { pieces, pause } = way else { return };
    // A program that has read a malformed record need not read on.
    let _ = pieces.iter().try_for_each(|piece| {
        std::thread::sleep(pause);
        pipe.write_all(piece)
    });
}

fn pieces(session: &[u8], random: &mut Random) -> Vec<Vec<u8>> {
    // Small pieces of a long session would take long.
    let most = [1, 3, 20, 500][random.below(4)].max(session.len() / 1000);
    let mut pieces = Vec::new();
    let mut rest = session;
    while !rest.is_empty() {
        let (piece, after) = rest.split_at(rest.len().min(1 + random.below(most)));
        pieces.push(piece.to_vec());
        rest = after;
    }
    pieces
}

fn wait(child: &mut Child) -> Result<(), String> {
    let start = Instant::now();
    loop {
        match child.try_wait().expect("the program's status") {
            Some(status) if status.success() => return Ok(()),
            Some(status) => return Err(format!("the program ended with {status}")),
            None if start.elapsed() > TIME => {
                child.kill().expect("the program's end");
                child.wait().expect("the program's status");
                return Err(format!("the program had not ended after {} s", TIME.as_secs()));
            }
            None => std::thread::sleep(Duration::from_micros(200)),
        }
    }
}

/// The session is kept.
fn report(
    place: u64,
    session: &[u8],
    expected: &Result<String, String>,
    found: &Result<String, String>,
) {
    let kept = format!("{DIRECTORY}/{place}.session");
    std::fs::write(&kept, session).expect("the session's file");
    println!("fuzz_session: {kept}: expected {expected:#?}, found {found:#?}");
}

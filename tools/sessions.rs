// Sessions for `portbench` (document 01, "The session program"), from standard input to standard output:
//
//     make    lines of text into a session (examples/README.md has their form)
//     show    a session into lines of text, with a comment on what each record did
//     print   a session into the text that `portbench` prints, by the model
//
// Arguments: one of these, and what a message calls the input.

#[path = "lines/mod.rs"]
mod lines;
#[path = "../model/mod.rs"]
mod model;

use lines::stream::Failure;
use std::fs::File;
use std::io::{BufWriter, ErrorKind, Read, Write};
use std::os::fd::{AsFd, BorrowedFd};
use std::process::exit;

/// As of a program that SIGPIPE ends: whoever read the output has gone.
const READER_GONE: i32 = 141;

fn main() {
    let arguments: Vec<String> = std::env::args().skip(1).collect();
    let [command, input] = &arguments[..] else {
        eprintln!("sessions: what to do and the input's name are expected");
        exit(2);
    };
    match run(command) {
        Ok(()) => (),
        Err(Failure::Write(error)) if error.kind() == ErrorKind::BrokenPipe => exit(READER_GONE),
        Err(failure) => {
            eprintln!("sessions: {}", told(&failure, input));
            exit(1);
        }
    }
}

fn told(failure: &Failure, input: &str) -> String {
    match failure {
        Failure::Read(error) => format!("{input} cannot be read: {error}"),
        Failure::Write(error) => format!("standard output cannot be written: {error}"),
        Failure::Lines(wrong) => format!("{input}: {wrong}"),
    }
}

fn run(command: &str) -> Result<(), Failure> {
    let mut input = file(std::io::stdin().as_fd()).map_err(Failure::Read)?;
    let output = file(std::io::stdout().as_fd()).map_err(Failure::Write)?;
    let mut output = BufWriter::new(output);
    match command {
        "make" => write(&mut output, &made(&whole(&mut input)?)?)?,
        "show" => lines::show::show(input, &mut output)?,
        "print" => {
            let text = model::session::printed(&whole(&mut input)?);
            write(&mut output, text.as_bytes())?
        }
        _ => return Err(Failure::Lines(format!("`{command}` is none of make, show and print"))),
    }
    output.flush().map_err(Failure::Write)
}

/// Rust's standard input takes one that cannot be read for an empty one, and its output some that cannot be written for written; a file does not.
fn file(descriptor: BorrowedFd) -> std::io::Result<File> {
    descriptor.try_clone_to_owned().map(File::from)
}

fn made(text: &[u8]) -> Result<Vec<u8>, Failure> {
    let text = std::str::from_utf8(text).map_err(|_| "the lines are not text".to_string());
    text.and_then(lines::make::make).map_err(Failure::Lines)
}

fn whole(input: &mut impl Read) -> Result<Vec<u8>, Failure> {
    let mut octets = Vec::new();
    input.read_to_end(&mut octets).map_err(Failure::Read)?;
    Ok(octets)
}

fn write(output: &mut impl Write, octets: &[u8]) -> Result<(), Failure> {
    output.write_all(octets).map_err(Failure::Write)
}

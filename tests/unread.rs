// Lengths are compared before contents: whatever has a wrong length lies here in pages that can be neither read nor written, so that a
// call that touches an octet of it ends the program. No contract says how much a call reads.

use crate::block_for;
use crate::comparisons::Comparisons;
use crate::engines::{engine_text, lent_tables, ENGINES};
use crate::library::{self, Bench, BenchTold, Params, Tables};
use crate::model::block::{sizes, LENGTH};
use crate::random::Random;

const PAGES: usize = 1 << 30;
const BLOCKS: usize = 20;
const RUNNING: u8 = 3;

/// The marks for process octets of the SPDU and for safe values.
const FRESH: u8 = 0;
const SAFE: u8 = 2;

extern "C" {
    fn mmap(
        address: *mut u8,
        length: usize,
        protection: i32,
        flags: i32,
        file: i32,
        offset: i64,
    ) -> *mut u8;
}

/// Pages of no permission, which take no memory.
fn pages() -> *mut u8 {
    const PROT_NONE: i32 = 0;
    const MAP_PRIVATE: i32 = 0x02;
    const MAP_ANONYMOUS: i32 = 0x20;
    const MAP_NORESERVE: i32 = 0x4000;
    let flags = MAP_PRIVATE | MAP_ANONYMOUS | MAP_NORESERVE;
    let found = unsafe { mmap(std::ptr::null_mut(), PAGES, PROT_NONE, flags, -1, 0) };
    assert!(found as isize != -1, "no pages to be had");
    found
}

/// Lengths other than the right one.
fn wrong(right: usize) -> Vec<usize> {
    let below = (right > 0).then(|| right - 1);
    below.into_iter().chain([right + 1, 256, PAGES]).collect()
}

/// One way at the port that runs.
struct Way {
    spdu: usize,
    process: usize,
    other: usize,
}

fn way(params: &Params, spdu: u8, other: u8) -> Way {
    let process = usize::from(spdu) - sizes(params.fsp_prot_mode).0 as usize;
    Way { spdu: spdu.into(), process, other: other.into() }
}

pub struct Unread<'a> {
    comparisons: &'a mut Comparisons,
    shift: bool,
    tables: &'a Tables,
    pages: *mut u8,
    bench: Bench,
    params: Params,
}

pub fn run(comparisons: &mut Comparisons, random: &mut Random) {
    println!("bench: what has a wrong length now lies in pages that can't be read");
    let pages = pages();
    for shift in ENGINES {
        let tables = &lent_tables(random, shift);
        for _ in 0..BLOCKS {
            let block = block_for(random, RUNNING, 100);
            let new = library::new_bench();
            let bench = library::set_parameters(shift, &new, RUNNING, 0, &block).bench;
            let params = bench.ports[usize::from(RUNNING) - 1].setting.params;
            Unread { comparisons, shift, tables, pages, bench, params }.run();
        }
    }
}

impl Unread<'_> {
    fn run(&mut self) {
        let Params { spdu_in_length, spdu_out_length, .. } = self.params;
        let incoming = way(&self.params, spdu_in_length, self.params.input_data_length);
        let outgoing = way(&self.params, spdu_out_length, self.params.output_data_length);
        self.blocks();
        self.safe_values(&incoming, &outgoing);
        self.spdus(&incoming, &outgoing);
        self.fields(&incoming, &outgoing);
        self.built(&incoming);
        self.composed(&outgoing);
        self.split(&incoming);
        self.handed_on(&incoming);
    }

    /// This side passes only the pointer and the length on.
    fn octets(&self, length: usize) -> &'static [u8] {
        unsafe { std::slice::from_raw_parts(self.pages, length) }
    }

    fn lent(&self, length: usize) -> &'static mut [u8] {
        unsafe { std::slice::from_raw_parts_mut(self.pages, length) }
    }

    /// The call at numbers that no port has, at a port that does not run, and at the one that runs.
    fn numbers(&mut self, name: &str, due: u8, call: impl Fn(&Bench, u8) -> u8) {
        let engine = engine_text(self.shift);
        for (port, number) in [(0, 8), (9, 8), (255, 8), (4, 9), (RUNNING, due)] {
            let found = call(&self.bench, port);
            self.comparisons.compare(number, found, || format!("{name}, port {port}, {engine}"));
        }
    }

    /// The same of a call that has a reading; the bench stays as it is.
    fn calls(&mut self, name: &str, due: u8, call: impl Fn(&Bench, u8) -> BenchTold) {
        self.numbers(name, due, |bench, port| {
            let told = call(bench, port);
            if told.bench == *bench {
                told.reply.number
            } else {
                u8::MAX
            }
        });
    }

    fn blocks(&mut self) {
        for length in wrong(LENGTH) {
            let octets = self.octets(length);
            for (port, number) in [(0, 8), (9, 8), (4, 1), (RUNNING, 1)] {
                self.block(port, octets, number);
            }
        }
        let octets = self.octets(LENGTH);
        self.block(0, octets, 8);
        self.block(9, octets, 8);
    }

    fn block(&mut self, port: u8, octets: &[u8], number: u8) {
        let told = library::set_parameters(self.shift, &self.bench, port, 1, octets);
        let judged = library::judge_block(self.shift, octets, port);
        let found = (told.reply.number, judged.number, told.bench == self.bench);
        let length = octets.len();
        self.comparisons.compare((number, number, true), found, || {
            format!("a block of {length} octets, port {port}")
        });
    }

    fn safe_values(&mut self, incoming: &Way, outgoing: &Way) {
        let shift = self.shift;
        let (response, request) = (vec![1; incoming.spdu], vec![1; outgoing.spdu]);
        let (zeros_in, zeros_out) = (vec![0; incoming.process], vec![0; outgoing.process]);
        for length in wrong(incoming.process) {
            let safe = self.octets(length);
            self.calls("safe values of a response", 7, |bench, port| {
                library::receive_response(shift, bench, port, 1, &response, safe)
            });
            self.calls("safe values of operator", 7, |bench, port| {
                library::operator(bench, port, 1, [false, false], safe)
            });
            self.calls("incoming safe values of clock", 7, |bench, port| {
                library::clock(bench, port, 1, safe, &zeros_out)
            });
        }
        for length in wrong(outgoing.process) {
            let safe = self.octets(length);
            self.calls("safe values of a request", 7, |bench, port| {
                library::receive_request(shift, bench, port, 1, &request, safe)
            });
            self.calls("outgoing safe values of clock", 7, |bench, port| {
                library::clock(bench, port, 1, &zeros_in, safe)
            });
        }
    }

    /// Of a wrong length, beside safe values that hold and beside ones that can't be read either.
    fn spdus(&mut self, incoming: &Way, outgoing: &Way) {
        let shift = self.shift;
        let (zeros_in, zeros_out) = (vec![0; incoming.process], vec![0; outgoing.process]);
        for length in wrong(incoming.spdu) {
            let spdu = self.octets(length);
            for safe in [&zeros_in[..], self.octets(PAGES)] {
                self.calls("a response", 10, |bench, port| {
                    library::receive_response(shift, bench, port, 1, spdu, safe)
                });
            }
        }
        for length in wrong(outgoing.spdu) {
            let spdu = self.octets(length);
            for safe in [&zeros_out[..], self.octets(PAGES)] {
                self.calls("a request", 10, |bench, port| {
                    library::receive_request(shift, bench, port, 1, spdu, safe)
                });
            }
        }
    }

    fn fields(&mut self, incoming: &Way, outgoing: &Way) {
        let (shift, tables) = (self.shift, self.tables);
        for length in wrong(incoming.spdu) {
            let read = tables.read_response(shift, self.params, self.octets(length));
            let marks = [read.port_holds, read.signature_holds, read.all_zero];
            self.comparisons.compare((length, [false; 3]), (read.length, marks), || {
                format!("the fields of a response of {length} octets")
            });
        }
        for length in wrong(outgoing.spdu) {
            let read = tables.read_request(shift, self.params, self.octets(length));
            let marks = [read.port_holds, read.signature_holds, read.all_zero];
            self.comparisons.compare((length, [false; 3]), (read.length, marks), || {
                format!("the fields of a request of {length} octets")
            });
        }
    }

    fn built(&mut self, incoming: &Way) {
        let shift = self.shift;
        for length in wrong(incoming.process) {
            let process = self.octets(length);
            self.numbers("process octets of a response", 7, |bench, port| {
                library::build_response(shift, bench, port, process, &mut vec![0; incoming.spdu])
            });
        }
        for length in wrong(incoming.spdu) {
            let pages = &*self;
            let process = vec![0; incoming.process];
            let found = [0, 9, 4, RUNNING].map(|port| {
                library::build_response(shift, &pages.bench, port, &process, pages.lent(length))
            });
            self.comparisons
                .compare([8, 8, 9, 7], found, || format!("a response built into {length} octets"));
        }
    }

    fn composed(&mut self, outgoing: &Way) {
        let shift = self.shift;
        let Way { spdu, process, other } = *outgoing;
        let image = spdu + other;
        for length in wrong(process) {
            let octets = self.octets(length);
            self.numbers("process octets of an image", 7, |bench, port| {
                library::compose(shift, bench, port, octets, &vec![0; other], &mut vec![0; image])
            });
        }
        for length in wrong(other) {
            let octets = self.octets(length);
            self.numbers("other data of an image", 7, |bench, port| {
                library::compose(shift, bench, port, &vec![0; process], octets, &mut vec![0; image])
            });
        }
        for length in wrong(image) {
            let pages = &*self;
            let (process, other) = (vec![0; process], vec![0; other]);
            let found = [0, 9, 4, RUNNING].map(|port| {
                library::compose(shift, &pages.bench, port, &process, &other, pages.lent(length))
            });
            self.comparisons
                .compare([8, 8, 9, 7], found, || format!("an image composed into {length} octets"));
        }
    }

    fn split(&mut self, incoming: &Way) {
        for length in wrong(incoming.spdu + incoming.other) {
            let image = self.octets(length);
            self.numbers("an image", 7, |bench, port| library::split(bench, port, image).number);
        }
    }

    /// Safe values by their mark, and process octets of an SPDU by theirs.
    fn handed_on(&mut self, incoming: &Way) {
        let shift = self.shift;
        let (zeros, spdu) = (vec![0; incoming.process], self.octets(incoming.spdu));
        for length in wrong(incoming.process) {
            let safe = self.octets(length);
            self.numbers("safe values handed on", 7, |bench, port| {
                let mut out = vec![0; incoming.process];
                library::handed_on(shift, bench, port, false, SAFE, spdu, safe, &mut out).number
            });
        }
        for length in wrong(incoming.spdu) {
            let spdu = self.octets(length);
            self.numbers("an SPDU handed on", 10, |bench, port| {
                let mut out = vec![0; incoming.process];
                library::handed_on(shift, bench, port, false, FRESH, spdu, &zeros, &mut out).number
            });
        }
    }
}

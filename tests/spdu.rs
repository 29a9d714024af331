// The library's building and reading of SPDUs against the model's, over many parameters and values.
// Argument: the seed of the random inputs, or none.

mod comparisons;
mod engines;
mod flips;
#[path = "../bindings/rust/library.rs"]
mod library;
#[path = "../model/mod.rs"]
mod model;
mod random;

use comparisons::{octets_text, Comparisons};
use engines::{engine_text, lent_tables, ENGINES};
use library::{Params, Tables};
use model::signature::{add, bits_number, divides, octet_bits};
use model::spdu::{Direction, Fields, Format, Values};
use random::Random;

const DIRECTIONS: [Direction; 2] = [Direction::Request, Direction::Response];

/// The protocol mode, and the shortest and the longest SPDU that a parameter block can have.
const FITTING: [(u8, u8, u8); 2] = [(1, 5, 7), (2, 6, 31)];

/// Parameters with this format; the others are random.
fn parameters(random: &mut Random, format: &Format) -> Params {
    let other = random.octet();
    let (request, response) = match format.direction {
        Direction::Request => (format.length, other),
        Direction::Response => (other, format.length),
    };
    Params {
        port_mode: random.octet(),
        validation_backup: random.octet(),
        iq_behavior: random.octet(),
        port_cycle_time: random.octet(),
        vendor_id: random.number() as u16,
        device_id: random.number() as u32,
        input_data_length: random.octet(),
        output_data_length: random.octet(),
        fscp_authenticity1: random.number() as u32,
        fscp_authenticity2: random.number() as u32,
        fsp_port: format.port,
        fsp_prot_version: random.octet(),
        fsp_prot_mode: format.mode,
        fsp_watchdog_time: random.number() as u16,
        fsp_tech_par_crc: random.number() as u32,
        io_desc_version: random.octet(),
        spdu_in_length: response,
        total_of_in_bits: random.octet(),
        total_of_in_octets: random.octet(),
        total_of_in_int16: random.octet(),
        total_of_in_int32: random.octet(),
        spdu_out_length: request,
        total_of_out_bits: random.octet(),
        total_of_out_octets: random.octet(),
        total_of_out_int16: random.octet(),
        total_of_out_int32: random.octet(),
    }
}

/// What the library signs by, and the tables that are lent to it.
struct Engine {
    shift: bool,
    tables: Tables,
}

fn library_read(engine: &Engine, direction: Direction, params: Params, spdu: &[u8]) -> Fields {
    let Engine { shift, tables } = engine;
    match direction {
        Direction::Request => {
            let read = tables.read_request(*shift, params, spdu);
            Fields {
                length: read.length,
                count: read.mcount,
                marks: [false, read.set_sd, read.chf_ack_req],
                port_holds: read.port_holds,
                signature_holds: read.signature_holds,
                all_zero: read.all_zero,
            }
        }
        Direction::Response => {
            let read = tables.read_response(*shift, params, spdu);
            Fields {
                length: read.length,
                count: read.dcount_i,
                marks: [read.sd_set, read.dcomm_err, read.dtimeout],
                port_holds: read.port_holds,
                signature_holds: read.signature_holds,
                all_zero: read.all_zero,
            }
        }
    }
}

fn library_build(
    engine: &Engine,
    direction: Direction,
    params: Params,
    values: &Values,
    process: &[u8],
    out: &mut [u8],
) -> u8 {
    let Engine { shift, tables } = engine;
    let Values { responded, count, marks } = *values;
    match direction {
        Direction::Request => {
            tables.build_request(*shift, params, count, [marks[1], marks[2]], process, out)
        }
        Direction::Response => {
            tables.build_response(*shift, params, responded, count, marks, process, out)
        }
    }
}

fn flipped(spdu: &[u8], flips: &[bool]) -> Vec<u8> {
    let mut bits = octet_bits(spdu);
    add(&mut bits, flips);
    bits.chunks(8).map(|octet| bits_number(octet) as u8).collect()
}

struct Test {
    engines: [Engine; 2],
    comparisons: Comparisons,
    random: Random,
}

impl Test {
    fn run(&mut self) {
        self.known_spdus();
        for direction in DIRECTIONS {
            for (mode, least, most) in FITTING {
                for length in least..=most {
                    let format = Format { direction, mode, port: 0, length };
                    self.built_and_read(format);
                    self.wrong_lengths(format);
                    self.zero_signatures(format);
                    self.damaged(format);
                    if mode == 1 {
                        self.one_or_two_flips(format);
                    }
                }
            }
            self.odd_parameters(direction);
            self.random_octets(direction);
        }
    }

    fn values(&mut self) -> Values {
        Values {
            responded: self.random.below(8) != 0,
            count: self.random.octet(),
            marks: [self.random.flag(), self.random.flag(), self.random.flag()],
        }
    }

    /// A signed SPDU of random octets. In every second one the port number is the port's.
    fn valid(&mut self, format: &Format) -> Vec<u8> {
        let process = usize::from(format.length) - format.safety_octets();
        let mut contents = self.random.octets(process + 2);
        if self.random.flag() {
            contents[process] = format.port;
        }
        format.signed(&contents)
    }

    /// Whether the signature holds, by each engine.
    fn compare_read(&mut self, format: &Format, spdu: &[u8]) -> [bool; 2] {
        let params = parameters(&mut self.random, format);
        let expected = format.read(spdu);
        let [by_tables, by_shift] = &self.engines;
        [by_tables, by_shift].map(|engine| {
            let found = library_read(engine, format.direction, params, spdu);
            self.comparisons.compare(&expected, &found, || {
                format!("{}, read by {format:?}, {}", engine_text(engine.shift), octets_text(spdu))
            });
            found.signature_holds
        })
    }

    /// Whether the signature holds where that is known without the model's check.
    fn compare_known(&mut self, known: bool, format: &Format, spdu: &[u8]) {
        for found in self.compare_read(format, spdu) {
            self.comparisons.compare(known, found, || {
                format!("known check, {format:?}, {}", octets_text(spdu))
            });
        }
    }

    /// Builds into a part of a buffer, by each engine, and compares the whole buffer. Returns the part.
    fn compare_build(
        &mut self,
        format: &Format,
        values: &Values,
        process: &[u8],
        size: usize,
    ) -> Vec<u8> {
        let params = parameters(&mut self.random, format);
        let start = self.random.below(16);
        let end = start + size;
        let before = self.random.octets(end + 16);
        let (number, part) = format.build(values, process, &before[start..end]);
        let expected = [&before[..start], &part, &before[end..]].concat();
        for engine in &self.engines {
            let mut buffer = before.clone();
            let out = &mut buffer[start..end];
            let found = library_build(engine, format.direction, params, values, process, out);
            self.comparisons.compare((number, &expected), (found, &buffer), || {
                let (engine, process) = (engine_text(engine.shift), octets_text(process));
                format!("{engine}, {format:?}, {values:?}, {process}, into {start} to {end}")
            });
        }
        part
    }

    /// The contents compute 4EAB in the first SPDU, and 0 in the second.
    fn known_spdus(&mut self) {
        for direction in DIRECTIONS {
            let format = Format { direction, mode: 1, port: 3, length: 7 };
            for (spdu, computed) in [
                ([0x00, 0x03, 0x3A, 0x03, 0x81, 0x4E, 0xAB], 0x4EAB),
                ([0x00, 0x03, 0x3A, 0x03, 0x80, 0x00, 0x01], 0),
            ] {
                let found = format.computed(format.contents(&spdu));
                self.comparisons
                    .compare(computed, found, || format!("computed, {}", octets_text(&spdu)));
                self.compare_known(true, &format, &spdu);
                self.compare_known(false, &format, &[&spdu[..5], &[0, 0]].concat());
            }
        }
    }

    fn built_and_read(&mut self, format: Format) {
        let length = usize::from(format.length);
        for _ in 0..250 {
            let format = Format { port: self.random.octet(), ..format };
            let values = self.values();
            let process = self.random.octets(length - format.safety_octets());
            let spdu = self.compare_build(&format, &values, &process, length);
            let silent = format.direction == Direction::Response && !values.responded;
            self.compare_known(!silent, &format, &spdu);
            let other = self.random.octet();
            self.compare_read(&Format { port: other, ..format }, &spdu);
            self.compare_read(&Format { mode: other, ..format }, &spdu);
            self.compare_read(&Format { length: other, ..format }, &spdu);
        }
    }

    /// Process octets and a buffer, each right or not.
    fn wrong_lengths(&mut self, format: Format) {
        let length = usize::from(format.length);
        for size in 0..=40 {
            for process in [length - format.safety_octets(), self.random.below(40), size] {
                for size in [length, size] {
                    let values = self.values();
                    let process = self.random.octets(process);
                    self.compare_build(&format, &values, &process, size);
                }
            }
            let spdu = self.random.octets(size);
            self.compare_read(&format, &spdu);
            self.compare_read(&format, &vec![0; size]);
        }
    }

    /// Contents that end in the signature of what stands ahead of it compute 0. Where they are those
    /// of an SPDU that can be built, it is built.
    fn zero_signatures(&mut self, format: Format) {
        let width = format.generator().width / 8;
        let length = usize::from(format.length);
        if length < 2 * width {
            return;
        }
        for _ in 0..100 {
            let ahead = self.random.octets(length - 2 * width);
            let signature = format.computed(&ahead).to_be_bytes();
            let contents = [&ahead, &signature[4 - width..]].concat();
            let (process, trailer) = contents.split_at(length - format.safety_octets());
            let (port, control) = (trailer[0], trailer[1]);
            let format = Format { port, ..format };
            let spdu = format.signed(&contents);
            self.comparisons.compare(0, format.computed(&contents), || octets_text(&contents));
            self.compare_known(true, &format, &spdu);
            self.compare_known(false, &format, &[&contents, &vec![0; width][..]].concat());
            let bits = octet_bits(&[control]);
            let values =
                Values { responded: true, count: control >> 5, marks: [bits[5], bits[6], bits[7]] };
            let built = self.compare_build(&format, &values, process, spdu.len());
            let reserved = match format.direction {
                // Zeros are sent in place of the process octets where setSD is 1.
                Direction::Request => 0x1E,
                Direction::Response => 0x18,
            };
            if control & reserved == 0 {
                self.comparisons.compare(&spdu, &built, || format!("zero, {format:?}"));
            }
        }
    }

    /// Each one and each two of the bits.
    fn one_or_two_flips(&mut self, format: Format) {
        let bits = 8 * usize::from(format.length);
        for _ in 0..6 {
            let format = Format { port: self.random.octet(), ..format };
            let spdu = self.valid(&format);
            for first in 0..bits {
                for second in first..bits {
                    let mut flips = vec![false; bits];
                    flips[first] = true;
                    flips[second] = true;
                    self.compare_flipped(&format, &spdu, &flips, None);
                }
            }
        }
    }

    fn damaged(&mut self, format: Format) {
        for kind in &flips::KINDS {
            for _ in 0..60 {
                let format = Format { port: self.random.octet(), ..format };
                let spdu = self.valid(&format);
                let flips = (kind.choose)(&mut self.random, format.generator(), 8 * spdu.len());
                self.compare_flipped(&format, &spdu, &flips, kind.passes);
            }
        }
    }

    /// Where both contents compute another value than 0, an SPDU passes after flips exactly where the
    /// generator divides the flips.
    fn compare_flipped(
        &mut self,
        format: &Format,
        spdu: &[u8],
        flips: &[bool],
        known: Option<bool>,
    ) {
        let flipped = flipped(spdu, flips);
        let holds = self.compare_read(format, &flipped);
        let computed = [spdu, &flipped].map(|spdu| format.computed(format.contents(spdu)));
        if computed.contains(&0) {
            return;
        }
        for passes in known.into_iter().chain([divides(format.generator(), flips)]) {
            for found in holds {
                self.comparisons.compare(passes, found, || {
                    let (before, after) = (octets_text(spdu), octets_text(&flipped));
                    format!("passes after flips, {format:?}, {before}, now {after}")
                });
            }
        }
    }

    /// Any protocol mode and each length, also lengths that no parameter block can have.
    fn odd_parameters(&mut self, direction: Direction) {
        for length in 0..=u8::MAX {
            for mode in [0, 1, 2, 3, 7, 255, self.random.octet()] {
                let format = Format { direction, mode, port: self.random.octet(), length };
                let size = usize::from(length);
                let values = self.values();
                let process = self.random.octets(size.saturating_sub(format.safety_octets()));
                let spdu = self.compare_build(&format, &values, &process, size);
                self.compare_read(&format, &spdu);
                self.compare_read(&format, &vec![0; size]);
            }
        }
    }

    fn random_octets(&mut self, direction: Direction) {
        for size in 0..=300 {
            for _ in 0..10 {
                let mode = 1 + self.random.below(3) as u8;
                let port = self.random.octet();
                let spdu = self.random.octets(size);
                for length in [size as u8, self.random.octet()] {
                    self.compare_read(&Format { direction, mode, port, length }, &spdu);
                }
            }
        }
    }
}

fn main() {
    let mut random = Random::from_arguments("spdu");
    let engines = ENGINES.map(|shift| Engine { shift, tables: lent_tables(&mut random, shift) });
    let mut test = Test { engines, comparisons: Comparisons::new("spdu"), random };
    test.run();
    test.comparisons.finish();
}

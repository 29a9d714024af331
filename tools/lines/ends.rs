// Both ends of each port while a session is made or shown: the bench that `portbench` runs, and an FS-Device outside it for every
// port, which takes each SPDU that the FS-Master sends and answers it.

use crate::model::bench::BenchModel;
use crate::model::histogram::Earlier;
use crate::model::machines::MasterModel;
use crate::model::session::{call, first_record, safe_values, Record, PARAMETERS, SPDU};
use crate::model::spdu::Direction;

/// The rows of 000 Table 38 that a call can take, those of the watchdog first.
pub const ROWS: [usize; 7] = [8, 14, 4, 7, 11, 12, 13];

pub struct Ends {
    bench: BenchModel,
    /// A second bench, of whose ports the FS-Device's end is used.
    devices: BenchModel,
    /// The reading of each port's last record, and its last SPDU.
    readings: [u32; 256],
    spdus: Vec<Vec<u8>>,
}

/// What a record did.
#[derive(Clone, Debug, PartialEq)]
pub struct Told {
    pub number: u8,
    pub offset: usize,
    pub rows: Vec<usize>,
    pub sample: Option<u16>,
    pub releases: bool,
    /// The FS-Master's end afterwards.
    pub master: MasterModel,
}

impl Ends {
    pub fn new() -> Ends {
        Ends {
            bench: BenchModel::new(),
            devices: BenchModel::new(),
            readings: [0; 256],
            spdus: vec![Vec::new(); 256],
        }
    }

    pub fn bench(&self) -> &BenchModel {
        &self.bench
    }

    pub fn reading(&self, port: u8) -> u32 {
        self.readings[usize::from(port)]
    }

    pub fn last_spdu(&self, port: u8) -> &[u8] {
        &self.spdus[usize::from(port)]
    }

    /// Takes the whole records that the octets begin with, and returns how many octets they have.
    pub fn take_all(&mut self, octets: &[u8]) -> usize {
        let mut taken = 0;
        while let Some(record) = first_record(&octets[taken..]) {
            taken += record.size();
            self.take(&record);
        }
        taken
    }

    pub fn take(&mut self, record: &Record) -> Told {
        let (port, at) = (record.port, record.at);
        self.readings[usize::from(port)] = at;
        if record.kind == SPDU {
            self.spdus[usize::from(port)] = record.octets.clone();
        }
        let rows = self.bench.rows;
        let reply = call(&mut self.bench, record);
        if reply.number == 0 {
            if record.kind == PARAMETERS {
                self.devices.set_parameters(port, at, &record.octets);
            }
            self.send_request(port, at);
        }
        let taken = |&row: &usize| self.bench.rows[row] > rows[row];
        let rows = ROWS.into_iter().filter(taken).collect();
        Told {
            number: reply.number,
            offset: reply.offset,
            rows,
            sample: self.take_sample(port),
            releases: reply.releases[0],
            master: self.bench.master(port).1,
        }
    }

    /// The sample of the last record, which the bench then forgets: its list would grow with the session.
    fn take_sample(&mut self, port: u8) -> Option<u16> {
        let sample = self.bench.samples(port).last().copied();
        if sample.is_some() {
            self.bench.put_earlier(port, Earlier::NOTHING);
        }
        sample
    }

    /// The FS-Master's SPDU reaches the FS-Device in the call that set it. One sent before is ignored there, its count being old.
    fn send_request(&mut self, port: u8, at: u32) {
        let process = safe_values(&self.bench, port, Direction::Request);
        let other = vec![0; self.bench.other_octets(port, Direction::Request).unwrap_or(0)];
        let length = self.bench.format(port, Direction::Request).map_or(0, |format| format.length);
        let image = vec![0; usize::from(length) + other.len()];
        let (_, image) = self.bench.compose(port, &process, &other, &image);
        self.devices.receive_request(port, at, &image[..length.into()], &process);
    }

    /// What the port's FS-Device answers at a reading, with process octets of its own. None, where the port does not run.
    pub fn response(&mut self, port: u8, at: u32, process: Option<Vec<u8>>) -> Option<Vec<u8>> {
        let length = self.devices.format(port, Direction::Response)?.length;
        let safe_in = safe_values(&self.devices, port, Direction::Response);
        let safe_out = safe_values(&self.devices, port, Direction::Request);
        self.devices.clock(port, at, &safe_in, &safe_out);
        let process = process.unwrap_or(safe_in);
        let (number, spdu) = self.devices.build_response(port, &process, &vec![0; length.into()]);
        (number == 0).then_some(spdu)
    }
}

// The library's two machines (000 Tables 38 and 40) against a model that walks every state, over random happenings: at each
// end alone, and with both ends joined by a channel that loses, damages, delays and repeats.
// Argument: the seed of the random inputs, or none.

mod as_model;
mod comparisons;
#[path = "../bindings/rust/library.rs"]
mod library;
#[path = "../model/mod.rs"]
mod model;
mod random;

use as_model::{device_read, master_read};
use comparisons::Comparisons;
use library::{Device, DeviceOutcome, Master, MasterOutcome, Request, Response};
use model::machines::{elapsed, DeviceModel, MasterModel, Received, Said};
use random::Random;

const MASTER_ROWS: [usize; 7] = [4, 7, 8, 11, 12, 13, 14];
const DEVICE_ROWS: [usize; 6] = [22, 25, 28, 29, 30, 31];
const RUNS: usize = 20_000;
const HAPPENINGS: usize = 60;

fn response(received: &Received) -> Response {
    Response {
        length: 8,
        dcount_i: received.count,
        sd_set: received.bits[0],
        dcomm_err: received.bits[1],
        dtimeout: received.bits[2],
        port_holds: received.port,
        signature_holds: received.signature,
        all_zero: received.zeros,
        unused: 0,
    }
}

fn request(received: &Received) -> Request {
    Request {
        length: 8,
        mcount: received.count,
        set_sd: received.bits[0],
        chf_ack_req: received.bits[1],
        port_holds: received.port,
        signature_holds: received.signature,
        all_zero: received.zeros,
        unused: 0,
    }
}

fn master_said(o: &MasterOutcome) -> Said {
    Said {
        watchdog: o.watchdog,
        arrival: o.arrival,
        check: o.check,
        old: o.old,
        passed: o.passed,
        mark: o.mark,
    }
}

fn device_said(o: &DeviceOutcome) -> Said {
    Said {
        watchdog: o.watchdog,
        arrival: o.arrival,
        check: o.check,
        old: o.old,
        passed: o.passed,
        mark: o.mark,
    }
}

struct Test {
    comparisons: Comparisons,
    random: Random,
    rows: [u64; 32],
    master: Master,
    master_model: MasterModel,
    device: Device,
    device_model: DeviceModel,
    w: u16,
    at: u32,
}

impl Test {
    fn new() -> Test {
        Test {
            comparisons: Comparisons::new("machines"),
            random: Random::from_arguments("machines"),
            rows: [0; 32],
            master: library::master_first(0),
            master_model: MasterModel::after_block(0),
            device: library::device_first(0),
            device_model: DeviceModel::after_block(),
            w: 1,
            at: 0,
        }
    }

    fn one_in(&mut self, n: usize) -> bool {
        self.random.below(n) == 0
    }

    fn block(&mut self) {
        self.at = match self.random.below(3) {
            0 => self.random.number() as u32,
            1 => 0u32.wrapping_sub(self.random.below(200) as u32),
            _ => self.random.below(200) as u32,
        };
        self.w = if self.one_in(4) {
            self.random.number() as u16 | 1
        } else {
            1 + self.random.below(20) as u16
        };
        self.master = library::master_first(self.at);
        self.master_model = MasterModel::after_block(self.at);
        self.device = library::device_first(self.at);
        self.device_model = DeviceModel::after_block();
        self.same_master(Said::default(), Said::default());
        self.same_device(Said::default(), Said::default());
    }

    fn pass_time(&mut self) {
        let w = u32::from(self.w);
        let step = match self.random.below(40) {
            0 => w + self.random.below(3) as u32,
            1 => self.random.number() as u32,
            2 => w,
            _ => self.random.below(1 + self.w as usize / 2) as u32,
        };
        self.at = self.at.wrapping_add(step);
    }

    fn same_master(&mut self, expected: Said, found: Said) {
        for row in [found.watchdog, found.arrival] {
            self.rows[usize::from(row)] += 1;
        }
        let place = format!("FS-Master, W {}, at {}", self.w, self.at);
        self.comparisons.compare(
            (self.master_model, expected),
            (master_read(&self.master), found),
            || place,
        );
    }

    fn same_device(&mut self, expected: Said, found: Said) {
        for row in [found.watchdog, found.arrival] {
            self.rows[usize::from(row)] += 1;
        }
        let place = format!("FS-Device, W {}, at {}", self.w, self.at);
        self.comparisons.compare(
            (self.device_model, expected),
            (device_read(&self.device), found),
            || place,
        );
    }

    fn to_master(&mut self, received: &Received) {
        let outcome = library::master_response(self.master, self.w, self.at, response(received));
        let expected = self.master_model.response(self.w, self.at, received);
        self.master = outcome.master;
        self.same_master(expected, master_said(&outcome));
    }

    fn to_device(&mut self, received: &Received) {
        let outcome = library::device_request(self.device, self.w, self.at, request(received));
        let expected = self.device_model.request(self.w, self.at, received);
        self.device = outcome.device;
        self.same_device(expected, device_said(&outcome));
    }

    fn clock_at_master(&mut self) {
        let outcome = library::master_clock(self.master, self.w, self.at);
        let expected = self.master_model.quiet(self.w, self.at);
        self.master = outcome.master;
        self.same_master(expected, master_said(&outcome));
    }

    fn clock_at_device(&mut self) {
        let outcome = library::device_clock(self.device, self.w, self.at);
        let expected = self.device_model.quiet(self.w, self.at);
        self.device = outcome.device;
        self.same_device(expected, device_said(&outcome));
    }

    fn operator(&mut self) {
        let (set_sd, ack) = (self.one_in(4), self.random.flag());
        let outcome = library::master_operator(self.master, self.w, self.at, set_sd, ack);
        let expected = self.master_model.operator(self.w, self.at, set_sd, ack);
        self.master = outcome.master;
        self.same_master(expected, master_said(&outcome));
    }

    /// An SPDU that is mostly right: a count near the one that is due, few bits set, few failures.
    fn received(&mut self, due: u8, often: usize) -> Received {
        let count = if self.one_in(often) { self.random.below(8) as u8 } else { due };
        let bits = [self.one_in(3), self.one_in(often), self.one_in(often)];
        Received {
            count,
            bits,
            port: !self.one_in(2 * often),
            signature: !self.one_in(2 * often),
            zeros: self.one_in(3 * often),
        }
    }

    fn master_alone(&mut self) {
        self.block();
        for _ in 0..HAPPENINGS {
            self.pass_time();
            match self.random.below(8) {
                0 => self.clock_at_master(),
                1 => self.operator(),
                _ => {
                    let received = self.received(7 - self.master_model.m_count, 10);
                    self.to_master(&received);
                }
            }
        }
    }

    fn device_alone(&mut self) {
        self.block();
        for _ in 0..HAPPENINGS {
            self.pass_time();
            if self.one_in(8) {
                self.clock_at_device();
            } else {
                let due = if self.one_in(8) { 0 } else { self.device_model.m_count % 7 + 1 };
                let received = self.received(due, 12);
                self.to_device(&received);
            }
        }
    }

    fn channel(&mut self, mut sent: Received) -> Received {
        if self.one_in(20) {
            sent.signature = false;
        }
        if self.one_in(60) {
            sent.port = false;
        }
        sent
    }

    /// Each end sends what its state says; an SPDU may be lost, damaged, or the one before it.
    fn joined(&mut self) {
        self.block();
        let nothing =
            Received { count: 0, bits: [false; 3], port: false, signature: false, zeros: true };
        let (mut last_there, mut last_back) = (nothing, nothing);
        for _ in 0..HAPPENINGS {
            self.pass_time();
            if self.one_in(6) {
                self.operator();
            }
            let m = self.master_model;
            let sent = Received {
                count: m.m_count,
                bits: [m.set_sd, m.request, false],
                port: true,
                signature: true,
                zeros: false,
            };
            let there = if self.one_in(15) { last_there } else { self.channel(sent) };
            last_there = there;
            if !self.one_in(15) {
                self.to_device(&there);
            }
            let d = self.device_model;
            let sent = Received {
                count: d.d_count_i,
                bits: [d.sd_set, d.d_comm_err, d.d_timeout],
                port: true,
                signature: true,
                zeros: !d.responded,
            };
            let back = if self.one_in(15) { last_back } else { self.channel(sent) };
            last_back = back;
            if !self.one_in(15) {
                self.to_master(&back);
            }
            if self.one_in(10) {
                self.clock_at_master();
                self.clock_at_device();
            }
        }
    }

    fn clock(&mut self) {
        self.comparisons
            .compare(10, library::elapsed(4, 4_294_967_290), || "elapsed over the wrap".into());
        for _ in 0..100_000 {
            let (now, since) = (self.random.number() as u32, self.random.number() as u32);
            let found = library::elapsed(now, since);
            self.comparisons
                .compare(elapsed(now, since), found, || format!("elapsed {now} {since}"));
        }
    }
}

fn main() {
    let mut test = Test::new();
    test.clock();
    for _ in 0..RUNS {
        test.master_alone();
        test.device_alone();
        test.joined();
    }
    for row in MASTER_ROWS.into_iter().chain(DEVICE_ROWS) {
        let acted = test.rows[row];
        println!("machines: T{row} acted {acted} times");
        test.comparisons.compare(true, acted >= 10_000, || format!("T{row} acted {acted} times"));
    }
    test.comparisons.finish();
}

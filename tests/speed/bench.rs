// The time of each call of the library's bench as a ratio to that of the same call in plain C, which has the bench by pointer, on
// the same input in one run. The copies that a caller by value makes are in the library's time.
// Argument: the seed of the random inputs, or none.

#[path = "../good_blocks.rs"]
mod good_blocks;
#[path = "../../bindings/rust/library.rs"]
mod library;
#[path = "../../model/mod.rs"]
mod model;
#[path = "../random.rs"]
mod random;

use good_blocks::{good, Block, KINDS};
use library::{
    Bench, BinsTold, DeviceTold, MasterTold, Params, ReplyTold, SplitTold, Trend, TrendPoint,
};
use model::block::{put, sign, sizes};
use random::Random;
use std::time::Instant;

/// The library signs by its tables, as C does.
const SHIFT: bool = false;
/// No watchdog ends in what is timed.
const W: u16 = 60_000;
const CYCLES: usize = 64;
const ROUNDS: usize = 150;
const PORTS: std::ops::RangeInclusive<u8> = 1..=8;
/// As many as any part of an image can have.
const ZEROS: [u8; 32] = [0; 32];
const SLOT: usize = 32;

extern "C" {
    fn reference_set_parameters(
        bench: &mut Bench,
        port: u8,
        at: u32,
        octets: *const u8,
        length: usize,
    ) -> ReplyTold;
    fn reference_receive_response(
        bench: &mut Bench,
        port: u8,
        at: u32,
        spdu: *const u8,
        length: usize,
        safe: *const u8,
        safe_length: usize,
    ) -> ReplyTold;
    fn reference_receive_request(
        bench: &mut Bench,
        port: u8,
        at: u32,
        spdu: *const u8,
        length: usize,
        safe: *const u8,
        safe_length: usize,
    ) -> ReplyTold;
    fn reference_clock(
        bench: &mut Bench,
        port: u8,
        at: u32,
        safe_in: *const u8,
        in_length: usize,
        safe_out: *const u8,
        out_length: usize,
    ) -> ReplyTold;
    fn reference_operator(
        bench: &mut Bench,
        port: u8,
        at: u32,
        set_sd_c: bool,
        ack_c: bool,
        safe: *const u8,
        safe_length: usize,
    ) -> ReplyTold;
    fn reference_compose(
        bench: &Bench,
        port: u8,
        process: *const u8,
        process_length: usize,
        other: *const u8,
        other_length: usize,
        octets: *mut u8,
        length: usize,
    ) -> u8;
    fn reference_build_response(
        bench: &Bench,
        port: u8,
        process: *const u8,
        process_length: usize,
        out: *mut u8,
        out_length: usize,
    ) -> u8;
    fn reference_split(bench: &Bench, port: u8, octets: *const u8, length: usize) -> SplitTold;
    fn reference_trend(bench: &Bench, port: u8) -> Trend;
    fn reference_bins(bench: &Bench, port: u8) -> BinsTold;
    fn reference_master(bench: &Bench, port: u8) -> MasterTold;
    fn reference_device(bench: &Bench, port: u8) -> DeviceTold;
}

/// What a batch of calls leaves: the bench, the octets written and a sum over what was said.
#[derive(Clone, PartialEq)]
struct Left {
    bench: Bench,
    octets: Vec<u8>,
    sum: u64,
}

impl Left {
    fn add(&mut self, said: u64) {
        self.sum = self.sum.wrapping_mul(3).wrapping_add(said);
    }

    fn add_reply(&mut self, reply: ReplyTold) {
        let marks = u64::from(reply.master) << 4 | u64::from(reply.device) << 2;
        let releases = u64::from(reply.master_releases) << 1 | u64::from(reply.device_releases);
        self.add(u64::from(reply.number) << 16 | u64::from(reply.offset) << 8 | marks | releases);
    }
}

/// The octets that a port's calls write.
fn slot(octets: &mut [u8], port: u8, size: usize) -> &mut [u8] {
    let start = SLOT * (usize::from(port) - 1);
    &mut octets[start..start + size]
}

/// A call with a reading, and the octets that arrive with it.
struct Call {
    port: u8,
    at: u32,
    octets: Vec<u8>,
}

/// The lengths at a port, from its parameters.
#[derive(Clone, Copy)]
struct Lengths {
    m: usize,
    n: usize,
    o: usize,
    p: usize,
    process_in: usize,
    process_out: usize,
}

fn lengths(params: &Params) -> Lengths {
    let safety_octets = sizes(params.fsp_prot_mode).0 as usize;
    let (m, o) = (usize::from(params.spdu_in_length), usize::from(params.spdu_out_length));
    Lengths {
        m,
        n: params.input_data_length.into(),
        o,
        p: params.output_data_length.into(),
        process_in: m - safety_octets,
        process_out: o - safety_octets,
    }
}

fn port_lengths(bench: &Bench, port: u8) -> Lengths {
    lengths(&bench.ports[usize::from(port) - 1].setting.params)
}

fn block_for(random: &mut Random, port: u8) -> Block {
    let kind = KINDS[random.below(KINDS.len())];
    let mut block = good(random, kind);
    put(&mut block, 27, 2, W.into());
    block[22] = port;
    sign(&mut block);
    block
}

/// The least time of each over all rounds, in nanoseconds for a call: whatever else the machine does can only add to it.
fn measure(
    name: &str,
    calls: usize,
    start: &Left,
    ours: impl Fn(&mut Left),
    reference: impl Fn(&mut Left),
) {
    let mut least = [f64::MAX; 2];
    for _ in 0..ROUNDS {
        let our_end = time(calls, start, &mut least[0], &ours);
        let reference_end = time(calls, start, &mut least[1], &reference);
        if our_end != reference_end {
            differs(name);
        }
    }
    let [ours, reference] = least;
    let ratio = ours / reference;
    println!("{name:<17} {ratio:>10.2} {ours:>10.1} {reference:>10.1}");
}

fn time(calls: usize, start: &Left, least: &mut f64, batch: impl Fn(&mut Left)) -> Left {
    let mut left = start.clone();
    let begin = Instant::now();
    batch(&mut left);
    *least = least.min(begin.elapsed().as_nanos() as f64 / calls as f64);
    left
}

fn differs(name: &str) -> ! {
    println!("speed: {name} differs from C's");
    std::process::exit(1);
}

/// Cycles of all ports by the library: the requests and the responses, and the bench at the end.
fn session(random: &mut Random, start: &Bench) -> (Vec<Call>, Vec<Call>, Bench) {
    let (mut requests, mut responses) = (Vec::new(), Vec::new());
    let mut bench = *start;
    let mut at = 0;
    for _ in 0..CYCLES {
        for port in PORTS {
            let Lengths { m, o, p, process_in, process_out, .. } = port_lengths(&bench, port);
            at += 1 + random.below(3) as u32;
            let mut image = vec![0; o + p];
            let process = random.octets(process_out);
            library::compose(SHIFT, &bench, port, &process, &random.octets(p), &mut image);
            image.truncate(o);
            let safe = &ZEROS[..process_out];
            bench = library::receive_request(SHIFT, &bench, port, at, &image, safe).bench;
            requests.push(Call { port, at, octets: image });
            at += 1;
            let mut spdu = vec![0; m];
            library::build_response(SHIFT, &bench, port, &random.octets(process_in), &mut spdu);
            let safe = &ZEROS[..process_in];
            bench = library::receive_response(SHIFT, &bench, port, at, &spdu, safe).bench;
            responses.push(Call { port, at, octets: spdu });
        }
    }
    (requests, responses, bench)
}

fn time_blocks(random: &mut Random, start: &Left) {
    let blocks: Vec<Call> = (0..CYCLES as u32)
        .flat_map(|at| PORTS.map(move |port| (at, port)))
        .map(|(at, port)| Call { port, at, octets: block_for(random, port).to_vec() })
        .collect();
    measure(
        "set_parameters",
        blocks.len(),
        start,
        |left| {
            for Call { port, at, octets } in &blocks {
                let told = library::set_parameters(SHIFT, &left.bench, *port, *at, octets);
                left.bench = told.bench;
                left.add_reply(told.reply);
            }
        },
        |left| {
            for Call { port, at, octets } in &blocks {
                let reply = unsafe {
                    reference_set_parameters(
                        &mut left.bench,
                        *port,
                        *at,
                        octets.as_ptr(),
                        octets.len(),
                    )
                };
                left.add_reply(reply);
            }
        },
    );
}

fn time_responses(responses: &[Call], start: &Left) {
    let safe = PORTS.map(|port| port_lengths(&start.bench, port).process_in).collect::<Vec<_>>();
    measure(
        "receive_response",
        responses.len(),
        start,
        |left| {
            for Call { port, at, octets } in responses {
                let safe = &ZEROS[..safe[usize::from(*port) - 1]];
                let told = library::receive_response(SHIFT, &left.bench, *port, *at, octets, safe);
                left.bench = told.bench;
                left.add_reply(told.reply);
            }
        },
        |left| {
            for Call { port, at, octets } in responses {
                let reply = unsafe {
                    reference_receive_response(
                        &mut left.bench,
                        *port,
                        *at,
                        octets.as_ptr(),
                        octets.len(),
                        ZEROS.as_ptr(),
                        safe[usize::from(*port) - 1],
                    )
                };
                left.add_reply(reply);
            }
        },
    );
}

fn time_requests(requests: &[Call], start: &Left) {
    let safe = PORTS.map(|port| port_lengths(&start.bench, port).process_out).collect::<Vec<_>>();
    measure(
        "receive_request",
        requests.len(),
        start,
        |left| {
            for Call { port, at, octets } in requests {
                let safe = &ZEROS[..safe[usize::from(*port) - 1]];
                let told = library::receive_request(SHIFT, &left.bench, *port, *at, octets, safe);
                left.bench = told.bench;
                left.add_reply(told.reply);
            }
        },
        |left| {
            for Call { port, at, octets } in requests {
                let reply = unsafe {
                    reference_receive_request(
                        &mut left.bench,
                        *port,
                        *at,
                        octets.as_ptr(),
                        octets.len(),
                        ZEROS.as_ptr(),
                        safe[usize::from(*port) - 1],
                    )
                };
                left.add_reply(reply);
            }
        },
    );
}

/// The ports one after another, some times, each with its lengths.
fn each_port(start: &Left) -> Vec<(u8, Lengths)> {
    (0..CYCLES).flat_map(|_| PORTS).map(|port| (port, port_lengths(&start.bench, port))).collect()
}

fn time_clock(start: &Left, at: u32) {
    let calls = each_port(start);
    measure(
        "clock",
        calls.len(),
        start,
        |left| {
            for (port, lengths) in &calls {
                let (safe_in, safe_out) =
                    (&ZEROS[..lengths.process_in], &ZEROS[..lengths.process_out]);
                let told = library::clock(&left.bench, *port, at, safe_in, safe_out);
                left.bench = told.bench;
                left.add_reply(told.reply);
            }
        },
        |left| {
            for (port, lengths) in &calls {
                let reply = unsafe {
                    reference_clock(
                        &mut left.bench,
                        *port,
                        at,
                        ZEROS.as_ptr(),
                        lengths.process_in,
                        ZEROS.as_ptr(),
                        lengths.process_out,
                    )
                };
                left.add_reply(reply);
            }
        },
    );
}

fn time_operator(start: &Left, at: u32) {
    let calls = each_port(start);
    measure(
        "operator",
        calls.len(),
        start,
        |left| {
            for (port, lengths) in &calls {
                let safe = &ZEROS[..lengths.process_in];
                let told = library::operator(&left.bench, *port, at, [false, true], safe);
                left.bench = told.bench;
                left.add_reply(told.reply);
            }
        },
        |left| {
            for (port, lengths) in &calls {
                let reply = unsafe {
                    reference_operator(
                        &mut left.bench,
                        *port,
                        at,
                        false,
                        true,
                        ZEROS.as_ptr(),
                        lengths.process_in,
                    )
                };
                left.add_reply(reply);
            }
        },
    );
}

fn time_compose(random: &mut Random, start: &Left) {
    let calls = each_port(start);
    let (process, other) = (random.octets(SLOT), random.octets(SLOT));
    measure(
        "compose",
        calls.len(),
        start,
        |left| {
            for (port, lengths) in &calls {
                let Lengths { o, p, process_out, .. } = *lengths;
                let image = slot(&mut left.octets, *port, o + p);
                let (process, other) = (&process[..process_out], &other[..p]);
                let number = library::compose(SHIFT, &left.bench, *port, process, other, image);
                left.add(number.into());
            }
        },
        |left| {
            for (port, lengths) in &calls {
                let Lengths { o, p, process_out, .. } = *lengths;
                let image = slot(&mut left.octets, *port, o + p).as_mut_ptr();
                let number = unsafe {
                    reference_compose(
                        &left.bench,
                        *port,
                        process.as_ptr(),
                        process_out,
                        other.as_ptr(),
                        p,
                        image,
                        o + p,
                    )
                };
                left.add(number.into());
            }
        },
    );
}

fn time_build_response(random: &mut Random, start: &Left) {
    let calls = each_port(start);
    let process = random.octets(SLOT);
    measure(
        "build_response",
        calls.len(),
        start,
        |left| {
            for (port, lengths) in &calls {
                let out = slot(&mut left.octets, *port, lengths.m);
                let process = &process[..lengths.process_in];
                let number = library::build_response(SHIFT, &left.bench, *port, process, out);
                left.add(number.into());
            }
        },
        |left| {
            for (port, lengths) in &calls {
                let out = slot(&mut left.octets, *port, lengths.m).as_mut_ptr();
                let number = unsafe {
                    reference_build_response(
                        &left.bench,
                        *port,
                        process.as_ptr(),
                        lengths.process_in,
                        out,
                        lengths.m,
                    )
                };
                left.add(number.into());
            }
        },
    );
}

fn time_split(random: &mut Random, start: &Left) {
    let calls = each_port(start);
    let image = random.octets(SLOT);
    measure(
        "split",
        calls.len(),
        start,
        |left| {
            for (port, lengths) in &calls {
                let told = library::split(&left.bench, *port, &image[..lengths.m + lengths.n]);
                left.add((usize::from(told.number) << 16 | told.spdu << 8 | told.other) as u64);
            }
        },
        |left| {
            for (port, lengths) in &calls {
                let told = unsafe {
                    reference_split(&left.bench, *port, image.as_ptr(), lengths.m + lengths.n)
                };
                left.add((usize::from(told.number) << 16 | told.spdu << 8 | told.other) as u64);
            }
        },
    );
}

/// A call that shows a port. Its whole result is compared once for each port number, and a part of it in the timed batch.
fn time_shown<T: PartialEq>(
    name: &str,
    start: &Left,
    ours: impl Fn(&Bench, u8) -> T,
    reference: impl Fn(&Bench, u8) -> T,
    part: impl Fn(T) -> u64,
) {
    for port in 0..=u8::MAX {
        if ours(&start.bench, port) != reference(&start.bench, port) {
            differs(name);
        }
    }
    let calls = each_port(start);
    measure(
        name,
        calls.len(),
        start,
        |left| {
            for (port, _) in &calls {
                left.add(part(ours(&left.bench, *port)));
            }
        },
        |left| {
            for (port, _) in &calls {
                left.add(part(reference(&left.bench, *port)));
            }
        },
    );
}

/// The patterns of a trend point, which has no equality of its own.
fn patterns(trend: Trend) -> (u8, u64, u32, u32) {
    let TrendPoint { mean, lowest, highest } = trend.point;
    (trend.number, mean.to_bits(), lowest.to_bits(), highest.to_bits())
}

fn time_all_shown(start: &Left) {
    time_shown(
        "trend",
        start,
        |bench, port| patterns(library::trend(bench, port)),
        |bench, port| patterns(unsafe { reference_trend(bench, port) }),
        |(number, mean, lowest, highest)| {
            mean ^ u64::from(number) ^ u64::from(lowest) << 32 ^ u64::from(highest)
        },
    );
    time_shown(
        "bins",
        start,
        library::bins,
        |bench, port| unsafe { reference_bins(bench, port) },
        |told| u64::from(told.total) << 8 | u64::from(told.number),
    );
    time_shown(
        "master",
        start,
        library::master,
        |bench, port| unsafe { reference_master(bench, port) },
        |told| u64::from(told.master.MTimer) << 8 | u64::from(told.number),
    );
    time_shown(
        "device",
        start,
        library::device,
        |bench, port| unsafe { reference_device(bench, port) },
        |told| u64::from(told.device.DTimer) << 8 | u64::from(told.number),
    );
}

fn main() {
    let mut random = Random::from_arguments("speed");
    let mut bench = library::new_bench();
    for port in PORTS {
        let block = block_for(&mut random, port);
        bench = library::set_parameters(SHIFT, &bench, port, 0, &block).bench;
    }
    let (requests, responses, running) = session(&mut random, &bench);
    let at = responses.last().map_or(0, |last| last.at + 1);
    let octets = vec![0; SLOT * 8];
    let start = Left { bench, octets: octets.clone(), sum: 0 };
    let running = Left { bench: running, octets, sum: 0 };

    println!("call              ratio to C    ns ours       ns C");
    time_blocks(&mut random, &start);
    time_responses(&responses, &start);
    time_requests(&requests, &start);
    time_clock(&running, at);
    time_operator(&running, at);
    time_compose(&mut random, &running);
    time_build_response(&mut random, &running);
    time_split(&mut random, &running);
    time_all_shown(&running);
}

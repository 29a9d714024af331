// The time of the library's signatures as a ratio to that of the usual C loop over a table of 256
// entries, and of the long one also to C that works half octets from 16 entries, on the same input in
// one run. Then the time of the signatures by the bit shift as a ratio to those by the library's table.

#[path = "../../bindings/rust/library.rs"]
mod library;
#[path = "../random.rs"]
mod random;

use random::Random;
use std::time::Instant;

// 000 11.4.7: the seed of the cyclic exchange.
const SEED: u8 = 1;

const LOADS: [Load; 3] = [
    Load { octets: 7, messages: 64, passes: 32, rounds: 4000 },
    Load { octets: 31, messages: 64, passes: 8, rounds: 4000 },
    Load { octets: 65536, messages: 8, passes: 1, rounds: 100 },
];
/// Of these, what is signed by the bit shift: the lengths that an SPDU can have.
const SHIFTED: usize = 2;

extern "C" {
    fn reference_signature16(seed: u16, octets: *const u8, length: usize) -> u16;
    fn reference_signature32(seed: u32, octets: *const u8, length: usize) -> u32;
    fn halves_signature32(seed: u32, octets: *const u8, length: usize) -> u32;
}

fn reference16(octets: &[u8]) -> u32 {
    unsafe { reference_signature16(SEED.into(), octets.as_ptr(), octets.len()).into() }
}

fn reference32(octets: &[u8]) -> u32 {
    unsafe { reference_signature32(SEED.into(), octets.as_ptr(), octets.len()) }
}

fn halves32(octets: &[u8]) -> u32 {
    unsafe { halves_signature32(SEED.into(), octets.as_ptr(), octets.len()) }
}

/// What one batch signs, and how many batches are timed.
struct Load {
    /// The length of a message.
    octets: usize,
    messages: usize,
    passes: usize,
    rounds: usize,
}

/// Times in nanoseconds for a call.
struct Times {
    reference: f64,
    halves: Option<f64>,
    lent: f64,
    plain: f64,
}

/// The least time of each form over all rounds: whatever else the machine does can only add to it.
fn measure(
    load: &Load,
    random: &mut Random,
    reference: impl Fn(&[u8]) -> u32,
    halves: Option<impl Fn(&[u8]) -> u32>,
    lent: impl Fn(&[u8]) -> u32,
    plain: impl Fn(&[u8]) -> u32,
) -> Times {
    let messages = random.octets(load.messages * load.octets);
    let unknown = f64::MAX;
    let mut least = Times { reference: unknown, halves: None, lent: unknown, plain: unknown };
    for _ in 0..load.rounds {
        let expected = time_batch(load, &messages, &mut least.reference, &reference);
        let by_lent_table = time_batch(load, &messages, &mut least.lent, &lent);
        let by_plain_form = time_batch(load, &messages, &mut least.plain, &plain);
        let by_halves = halves.as_ref().map_or(expected, |halves| {
            let least = least.halves.get_or_insert(unknown);
            time_batch(load, &messages, least, halves)
        });
        if [by_lent_table, by_plain_form, by_halves] != [expected; 3] {
            differ(load);
        }
    }
    least
}

/// Likewise, by the bit shift and by the table.
fn measure_shift(
    load: &Load,
    random: &mut Random,
    by_shift: impl Fn(&[u8]) -> u32,
    by_table: impl Fn(&[u8]) -> u32,
) -> [f64; 2] {
    let messages = random.octets(load.messages * load.octets);
    let mut least = [f64::MAX; 2];
    for _ in 0..load.rounds {
        let expected = time_batch(load, &messages, &mut least[1], &by_table);
        if time_batch(load, &messages, &mut least[0], &by_shift) != expected {
            differ(load);
        }
    }
    least
}

fn differ(load: &Load) -> ! {
    println!("speed: signatures of {} octets differ", load.octets);
    std::process::exit(1);
}

/// Signs every message, lowers `least` to the time of a call, and answers the sum of the signatures.
fn time_batch(
    load: &Load,
    messages: &[u8],
    least: &mut f64,
    signature: impl Fn(&[u8]) -> u32,
) -> u32 {
    let mut sum = 0u32;
    let start = Instant::now();
    for _ in 0..load.passes {
        for message in messages.chunks_exact(load.octets) {
            sum = sum.wrapping_mul(3).wrapping_add(signature(message));
        }
    }
    let calls = (load.passes * load.messages) as f64;
    *least = least.min(start.elapsed().as_nanos() as f64 / calls);
    sum
}

fn print_rows(octets: usize, width: usize, times: &Times) {
    for (form, time) in [("lent", times.lent), ("plain", times.plain)] {
        let (ratio, reference) = (time / times.reference, times.reference);
        print!("{octets:>6} {width:>6}  {form:<6} {time:>9.1} {ratio:>12.2} {reference:>9.1}");
        match times.halves {
            Some(halves) => println!(" {:>11.2} {halves:>9.1}", time / halves),
            None => println!(),
        }
    }
}

fn print_shift_row(octets: usize, width: usize, [shift, table]: [f64; 2]) {
    let ratio = shift / table;
    println!("{octets:>6} {width:>6}  {:<6} {shift:>9.1} {ratio:>12.2} {table:>9.1}", "shift");
}

fn main() {
    let mut random = Random::from_arguments("speed");
    let mut table16 = [0; 256];
    let mut table32 = [0; 16];
    library::table16(&mut table16);
    library::table32(&mut table32);

    println!("octets  width  form     ns ours  to C of 256      ns C  to C of 16      ns C");
    for load in &LOADS {
        let short = measure(
            load,
            &mut random,
            reference16,
            None::<fn(&[u8]) -> u32>,
            |octets| library::signature16_by(&table16, SEED.into(), octets).into(),
            |octets| library::signature16(SEED.into(), octets).into(),
        );
        print_rows(load.octets, 16, &short);
        let long = measure(
            load,
            &mut random,
            reference32,
            Some(halves32),
            |octets| library::signature32_by(&table32, SEED.into(), octets),
            |octets| library::signature32(SEED.into(), octets),
        );
        print_rows(load.octets, 32, &long);
    }

    println!("octets  width  form     ns ours     to table  ns table");
    for load in &LOADS[..SHIFTED] {
        let short = measure_shift(
            load,
            &mut random,
            |octets| library::signature16_by_shift(SEED.into(), octets).into(),
            |octets| library::signature16(SEED.into(), octets).into(),
        );
        print_shift_row(load.octets, 16, short);
        let long = measure_shift(
            load,
            &mut random,
            |octets| library::signature32_by_shift(SEED.into(), octets),
            |octets| library::signature32(SEED.into(), octets),
        );
        print_shift_row(load.octets, 32, long);
    }
}

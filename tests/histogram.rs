// The library's histogram and trend point (document 01) against a model that keeps every sample.
// Argument: the seed of the random inputs, or none.

mod as_model;
mod comparisons;
#[path = "../bindings/rust/library.rs"]
mod library;
#[path = "../model/mod.rs"]
mod model;
mod random;

use as_model::point_read;
use comparisons::Comparisons;
use library::Histogram;
use model::histogram::{Earlier, Point, Samples, LIMIT};
use random::Random;

/// Everything that the library shows of a histogram, in the model's types.
#[derive(Debug, PartialEq)]
struct Shown {
    bins: [u64; 32],
    total: u64,
    sum: u64,
    lowest: u16,
    highest: u16,
    frozen: bool,
    trend: (u8, Point),
}

fn shown(histogram: Histogram) -> Shown {
    let trend = library::trend_of(histogram);
    Shown {
        bins: histogram.bins.map(u64::from),
        total: histogram.total.into(),
        sum: histogram.sum,
        lowest: histogram.lowest,
        highest: histogram.highest,
        frozen: library::frozen(histogram),
        trend: (trend.number, point_read(&trend.point)),
    }
}

fn expected(samples: &Samples) -> Shown {
    Shown {
        bins: samples.bins(),
        total: samples.total(),
        sum: samples.sum(),
        lowest: samples.lowest(),
        highest: samples.highest(),
        frozen: samples.frozen(),
        trend: samples.trend(),
    }
}

struct Test {
    comparisons: Comparisons,
    random: Random,
}

impl Test {
    fn run(&mut self) {
        self.known_bins();
        self.bins();
        self.short_runs();
        self.long_runs();
        self.runs_into_the_limit();
        self.any_histograms();
        self.means();
    }

    /// Document 01, "Numbers to try".
    fn known_bins(&mut self) {
        for (watchdog, time, bin) in
            [(99, 3, 0), (99, 4, 1), (99, 99, 31), (1, 1, 16), (65535, 65535, 31)]
        {
            self.comparisons.compare(bin, library::bin(watchdog, time), || {
                format!("bin, watchdog {watchdog}, time {time}")
            });
        }
    }

    /// The bin b of t has b * (W + 1) <= t * 32 < (b + 1) * (W + 1), and is below 32 for t at most W.
    fn bin(&mut self, watchdog: u16, time: u32) {
        let bin = library::bin(watchdog, time) as u128;
        let (width, scaled) = (u128::from(watchdog) + 1, u128::from(time) * 32);
        let inside = bin * width <= scaled && scaled < (bin + 1) * width;
        let below = time > watchdog.into() || bin < 32;
        self.comparisons.compare((true, true), (inside, below), || {
            format!("bin {bin}, watchdog {watchdog}, time {time}")
        });
    }

    fn bins(&mut self) {
        for watchdog in 0..300 {
            for time in 0..=2 * u32::from(watchdog) {
                self.bin(watchdog, time);
            }
        }
        for watchdog in 0..=u16::MAX {
            let last = u32::from(watchdog);
            let any = self.random.number() as u32;
            for time in [0, last, last + 1, any % (last + 1), any, u32::MAX] {
                self.bin(watchdog, time);
            }
        }
    }

    fn watchdog(&mut self) -> u16 {
        match self.random.below(8) {
            0 => 1,
            1 => 31,
            2 => u16::MAX,
            3 => self.random.below(100) as u16,
            _ => self.random.number() as u16,
        }
    }

    /// A sample: at an end, beside an edge between two bins, or any.
    fn sample(&mut self, watchdog: u16) -> u16 {
        let count = u64::from(watchdog) + 1;
        let time = match self.random.below(6) {
            0 => 0,
            1 => watchdog.into(),
            2 => (self.random.number() % 32 * count / 32).saturating_sub(1),
            3 => self.random.number() % 32 * count / 32,
            _ => self.random.number() % count,
        };
        time as u16
    }

    fn compare(&mut self, samples: &Samples, histogram: Histogram) {
        self.comparisons.compare(expected(samples), shown(histogram), || {
            let (watchdog, made) = (samples.watchdog, samples.list.len());
            let last = &samples.list[made.saturating_sub(8)..];
            let earlier = &samples.earlier;
            format!("watchdog {watchdog}, {made} samples, last {last:?}, after {earlier:?}")
        });
    }

    /// Counts `count` samples after those that the histogram holds, and compares every `each` samples.
    fn follow(
        &mut self,
        mut samples: Samples,
        mut histogram: Histogram,
        count: usize,
        each: usize,
    ) {
        self.compare(&samples, histogram);
        for made in 1..=count {
            let time = self.sample(samples.watchdog);
            samples.list.push(time);
            histogram = library::counted(histogram, samples.watchdog, time);
            if made % each == 0 {
                self.compare(&samples, histogram);
            }
        }
    }

    fn short_runs(&mut self) {
        for _ in 0..2000 {
            let samples = Samples::new(self.watchdog(), Earlier::NOTHING);
            self.follow(samples, library::cleared(), 40, 1);
        }
    }

    fn long_runs(&mut self) {
        for _ in 0..12 {
            let samples = Samples::new(self.watchdog(), Earlier::NOTHING);
            self.follow(samples, library::cleared(), 400_000, 50_000);
        }
    }

    /// From a histogram that is at the limit or a few samples short of it, to some samples past it.
    fn runs_into_the_limit(&mut self) {
        for _ in 0..20_000 {
            let watchdog = self.watchdog();
            let short = self.random.below(6) as u64;
            let earlier = self.earlier(watchdog, LIMIT - short);
            let (lowest, highest) = earlier.ends.unwrap();
            let histogram = Histogram {
                bins: earlier.bins.map(|count| count as u32),
                total: (LIMIT - short) as u32,
                sum: earlier.sum,
                lowest,
                highest,
            };
            self.follow(Samples::new(watchdog, earlier), histogram, 8, 1);
        }
    }

    /// As many earlier samples, some of them in any bin.
    fn earlier(&mut self, watchdog: u16, total: u64) -> Earlier {
        let (one, other) = (self.sample(watchdog), self.sample(watchdog));
        let (lowest, highest) = (one.min(other), one.max(other));
        let mut bins = [0; 32];
        let mut left = total;
        for bin in &mut bins[..31] {
            *bin = self.random.number() % (left + 1);
            left -= *bin;
        }
        bins[31] = left;
        bins.rotate_left(self.random.below(32));
        let (least, most) = (u64::from(lowest) * total, u64::from(highest) * total);
        let sum = least + self.random.number() % (most - least + 1);
        Earlier { bins, sum, ends: Some((lowest, highest)) }
    }

    /// Histograms that no samples give, and times past the watchdog: counts wrap, and past the last bin
    /// none changes.
    fn any_histograms(&mut self) {
        for _ in 0..200_000 {
            let before = Histogram {
                bins: std::array::from_fn(|_| match self.random.below(3) {
                    0 => u32::MAX,
                    _ => self.random.number() as u32,
                }),
                total: match self.random.below(4) {
                    0 => 0,
                    1 => u32::MAX - self.random.below(3) as u32,
                    _ => self.random.number() as u32,
                },
                sum: u64::MAX - self.random.number() % 100_000,
                lowest: self.random.number() as u16,
                highest: self.random.number() as u16,
            };
            let watchdog = self.watchdog();
            let time = self.random.number() as u16;
            let found = library::counted(before, watchdog, time);
            let expected = one_more(before, watchdog, time);
            self.comparisons.compare(expected, found, || {
                format!("one more, watchdog {watchdog}, time {time}, before {before:?}")
            });
        }
    }

    /// The mean is the f64 of the quotient: as the processor divides, and by whole numbers within half of
    /// the last digit, which is never reached (docs/DECISIONS.md).
    fn means(&mut self) {
        for _ in 0..300_000 {
            let total = (self.random.number() >> (32 + self.random.below(32))).max(1);
            let sum = self.random.number() >> (16 + self.random.below(48));
            self.mean(sum, total);
        }
        for total in (1..2000).map(|less| LIMIT + 1 - less) {
            for sum in [1, total - 1, total + 1, 65535 * total, (1 << 48) - 1] {
                self.mean(sum, total);
            }
            self.middles(total);
        }
    }

    /// Quotients that lie 1 / (total * 2^38) above and below the middle of two floats, for an odd total.
    fn middles(&mut self, total: u64) {
        if total % 2 == 0 {
            return;
        }
        let mut halves = 1;
        for _ in 0..38 {
            halves = if halves % 2 == 0 { halves / 2 } else { (halves + total) / 2 };
        }
        let whole = 32768 + self.random.number() % 32000;
        self.mean(whole * total + halves, total);
        self.mean(whole * total + (total - halves), total);
    }

    fn mean(&mut self, sum: u64, total: u64) {
        let histogram =
            Histogram { bins: [0; 32], total: total as u32, sum, lowest: 0, highest: u16::MAX };
        let mean = library::trend_of(histogram).point.mean;
        let inputs = || format!("mean, sum {sum}, total {total}");
        self.comparisons.compare((sum as f64 / total as f64).to_bits(), mean.to_bits(), inputs);
        if sum > 0 {
            // mean = digits / 2^places
            let digits = u128::from(mean.to_bits() << 12 >> 12 | 1 << 52);
            let places = 1075 - (mean.to_bits() >> 52);
            let (ours, exact) = (digits * u128::from(total), u128::from(sum) << places);
            let near = ours.abs_diff(exact) * 2 < total.into();
            self.comparisons.compare(true, near, inputs);
        }
    }
}

/// One more sample, in numbers that do not wrap, cut to the fields' sizes.
fn one_more(before: Histogram, watchdog: u16, time: u16) -> Histogram {
    if u64::from(before.total) == LIMIT {
        return before;
    }
    let mut bins = before.bins.map(u64::from);
    let bin = u64::from(time) * 32 / (u64::from(watchdog) + 1);
    if let Some(count) = bins.get_mut(bin as usize) {
        *count += 1;
    }
    let ends = if before.total == 0 { [time, time] } else { [before.lowest, before.highest] };
    Histogram {
        bins: bins.map(|count| count as u32),
        total: before.total + 1,
        sum: (u128::from(before.sum) + u128::from(time)) as u64,
        lowest: ends[0].min(time),
        highest: ends[1].max(time),
    }
}

fn main() {
    let comparisons = Comparisons::new("histogram");
    let random = Random::from_arguments("histogram");
    let mut test = Test { comparisons, random };
    test.run();
    test.comparisons.finish();
}

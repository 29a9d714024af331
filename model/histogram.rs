// The histogram of document 01, from the whole list of samples: nothing is kept but the list, and each
// question counts it again.

pub const LIMIT: u64 = 4_294_967_295;

/// What came before the samples that are kept: a port that has run for months holds more of them than a
/// list can.
#[derive(Clone, Debug)]
pub struct Earlier {
    pub bins: [u64; 32],
    pub sum: u64,
    /// The lowest and the highest, where there is any.
    pub ends: Option<(u16, u16)>,
}

impl Earlier {
    pub const NOTHING: Earlier = Earlier { bins: [0; 32], sum: 0, ends: None };

    fn total(&self) -> u64 {
        self.bins.iter().sum()
    }
}

#[derive(Clone, Debug)]
pub struct Samples {
    pub watchdog: u16,
    pub earlier: Earlier,
    pub list: Vec<u16>,
}

#[derive(Clone, Copy, Debug, PartialEq)]
pub struct Point {
    /// As a pattern, so that equal is equal in every bit.
    pub mean: u64,
    pub lowest: u32,
    pub highest: u32,
}

impl Samples {
    pub fn new(watchdog: u16, earlier: Earlier) -> Samples {
        Samples { watchdog, earlier, list: Vec::new() }
    }

    /// The samples up to the limit.
    fn counted(&self) -> &[u16] {
        let room = (LIMIT - self.earlier.total()).min(self.list.len() as u64);
        &self.list[..room as usize]
    }

    /// Bin i covers the times from i * (W + 1) / 32, rounded up, to the next bin's first.
    pub fn bins(&self) -> [u64; 32] {
        let firsts: [u64; 33] =
            std::array::from_fn(|bin| (bin as u64 * (u64::from(self.watchdog) + 1) + 31) / 32);
        let mut bins = self.earlier.bins;
        for &t in self.counted() {
            let bin = firsts.partition_point(|&first| first <= t.into()) - 1;
            bins[bin] += 1;
        }
        bins
    }

    pub fn total(&self) -> u64 {
        self.earlier.total() + self.counted().len() as u64
    }

    pub fn sum(&self) -> u64 {
        self.earlier.sum + self.counted().iter().map(|&t| u64::from(t)).sum::<u64>()
    }

    fn all_ends(&self) -> impl Iterator<Item = (u16, u16)> + '_ {
        self.earlier.ends.into_iter().chain(self.counted().iter().map(|&t| (t, t)))
    }

    pub fn lowest(&self) -> u16 {
        self.all_ends().map(|ends| ends.0).min().unwrap_or(0)
    }

    pub fn highest(&self) -> u16 {
        self.all_ends().map(|ends| ends.1).max().unwrap_or(0)
    }

    pub fn frozen(&self) -> bool {
        self.total() == LIMIT
    }

    /// The answer number and the trend point.
    pub fn trend(&self) -> (u8, Point) {
        if self.total() == 0 {
            return (11, Point { mean: 0, lowest: 0, highest: 0 });
        }
        let mean = self.sum() as f64 / self.total() as f64;
        let lowest = f32::from(self.lowest()).to_bits();
        let highest = f32::from(self.highest()).to_bits();
        (0, Point { mean: mean.to_bits(), lowest, highest })
    }
}

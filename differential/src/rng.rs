//! Random numbers by splitmix64: a seed gives the whole run again.

use std::ops::RangeInclusive;

pub struct Rng(u64);

impl Rng {
    #[must_use]
    pub fn new(seed: u64) -> Rng {
        Rng(seed)
    }

    pub fn word(&mut self) -> u64 {
        self.0 = self.0.wrapping_add(0x9e37_79b9_7f4a_7c15);
        let mut z = self.0;
        z = (z ^ (z >> 30)).wrapping_mul(0xbf58_476d_1ce4_e5b9);
        z = (z ^ (z >> 27)).wrapping_mul(0x94d0_49bb_1331_11eb);
        z ^ (z >> 31)
    }

    /// A number below `n`.
    pub fn below(&mut self, n: u64) -> u64 {
        self.word() % n
    }

    /// A place in a list that is not empty.
    pub fn index(&mut self, len: usize) -> usize {
        (self.word() % len as u64) as usize
    }

    pub fn within(&mut self, range: RangeInclusive<u64>) -> u64 {
        range.start() + self.below(range.end() - range.start() + 1)
    }

    /// True once in `n` times.
    pub fn once_in(&mut self, n: u64) -> bool {
        self.below(n) == 0
    }

    pub fn pick<T: Clone>(&mut self, from: &[T]) -> T {
        from[self.index(from.len())].clone()
    }

    /// A number at an edge: 0, 1, beside the limit, or far above it.
    pub fn around(&mut self, limit: u64) -> u64 {
        match self.below(9) {
            0 => 0,
            1 => 1,
            2 => limit.saturating_sub(1),
            3 => limit,
            4 | 5 => limit.saturating_add(1),
            6 => 1 << 40,
            7 => u64::MAX,
            _ => self.word() >> self.below(64),
        }
    }

    /// Any pattern: ordinary numbers, edges of the format, and words at random.
    pub fn float(&mut self) -> f64 {
        match self.below(8) {
            0..=3 => self.ordinary(),
            4 | 5 => f64::from_bits(self.pick(&EDGES)),
            _ => f64::from_bits(self.word()),
        }
    }

    /// A number of eighths below 125, now and then negative.
    pub fn ordinary(&mut self) -> f64 {
        let x = self.below(1000) as f64 / 8.0;
        if self.once_in(8) { -x } else { x }
    }

    /// A probability, often one of those at the ends.
    pub fn probability(&mut self) -> f64 {
        match self.below(6) {
            0 => self.pick(&[0.0, -0.0, 1.0, 1e-3]),
            1 | 2 => self.pick(&[0.5, 0.25, 0.125, 0.1]),
            _ => (self.word() >> 11) as f64 / (1u64 << 53) as f64,
        }
    }
}

/// Zeros, infinities, NaNs of both signs (quiet, signalling, with a payload), the ends of the
/// subnormal and the normal numbers, and ones.
const EDGES: [u64; 20] = [
    0,
    1 << 63,
    0x7ff0_0000_0000_0000,
    0xfff0_0000_0000_0000,
    0x7ff8_0000_0000_0000,
    0xfff8_0000_0000_0000,
    0x7ff0_0000_0000_0001,
    0xfff0_0000_0000_0001,
    0x7ff8_0000_0000_002a,
    0xffff_ffff_ffff_ffff,
    1,
    (1 << 63) | 1,
    0x000f_ffff_ffff_ffff,
    0x0010_0000_0000_0000,
    0x7fef_ffff_ffff_ffff,
    0xffef_ffff_ffff_ffff,
    0x3ff0_0000_0000_0000,
    0xbff0_0000_0000_0000,
    0x3ff0_0000_0000_0001,
    0x4330_0000_0000_0000,
];

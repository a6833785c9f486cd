//! Random numbers that depend on nothing but the seed and the number of the case, so that one case can be repeated.

use std::ops::RangeInclusive;

/// The generator known as SplitMix64.
pub struct Random(u64);

impl Random {
    pub fn for_case(seed: u64, case: u64) -> Random {
        let mut of_seed = Random(seed);
        let mut of_case = Random(case);
        Random(of_seed.next() ^ of_case.next().rotate_left(32))
    }

    pub fn next(&mut self) -> u64 {
        self.0 = self.0.wrapping_add(0x9E37_79B9_7F4A_7C15);
        let mut mixed = self.0;
        mixed = (mixed ^ (mixed >> 30)).wrapping_mul(0xBF58_476D_1CE4_E5B9);
        mixed = (mixed ^ (mixed >> 27)).wrapping_mul(0x94D0_49BB_1331_11EB);
        mixed ^ (mixed >> 31)
    }

    pub fn word(&mut self) -> u16 {
        self.next() as u16
    }

    pub fn byte(&mut self) -> u8 {
        self.next() as u8
    }

    pub fn within(&mut self, range: RangeInclusive<usize>) -> usize {
        range.start() + (self.next() % (range.end() - range.start() + 1) as u64) as usize
    }

    /// True once in so many times.
    pub fn once_in(&mut self, times: usize) -> bool {
        self.within(1..=times) == 1
    }

    pub fn pick<T: Copy>(&mut self, from: &[T]) -> T {
        from[self.within(0..=from.len() - 1)]
    }
}

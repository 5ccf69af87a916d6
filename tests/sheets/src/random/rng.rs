//! Random numbers: splitmix64, the same for the same seed everywhere.

use std::ops::RangeInclusive;

#[derive(Clone, Debug)]
pub struct Rng(u64);

impl Rng {
    pub fn new(seed: u64) -> Rng {
        Rng(seed)
    }

    /// 64 random bits.
    pub fn bits(&mut self) -> u64 {
        self.0 = self.0.wrapping_add(0x9e37_79b9_7f4a_7c15);
        let mut mixed = self.0;
        mixed = (mixed ^ (mixed >> 30)).wrapping_mul(0xbf58_476d_1ce4_e5b9);
        mixed = (mixed ^ (mixed >> 27)).wrapping_mul(0x94d0_49bb_1331_11eb);
        mixed ^ (mixed >> 31)
    }

    /// A number in the range.
    pub fn within(&mut self, range: RangeInclusive<i64>) -> i64 {
        let count = (range.end() - range.start()) as u64 + 1;
        range.start() + (self.bits() % count) as i64
    }

    /// An index below `count`.
    pub fn below(&mut self, count: usize) -> usize {
        (self.bits() % count as u64) as usize
    }

    /// True once in `times` on the average.
    pub fn once_in(&mut self, times: usize) -> bool {
        self.below(times) == 0
    }

    /// One of the entries.
    pub fn pick<T: Clone>(&mut self, entries: &[T]) -> T {
        entries[self.below(entries.len())].clone()
    }

    /// The number with a random sign.
    pub fn signed(&mut self, number: i64) -> i64 {
        if self.once_in(2) {
            -number
        } else {
            number
        }
    }

    /// A byte of any value.
    pub fn byte(&mut self) -> u8 {
        self.bits() as u8
    }

    /// Bytes of any value.
    pub fn bytes(&mut self, count: usize) -> Vec<u8> {
        (0..count).map(|_| self.byte()).collect()
    }

    /// Puts the entries into random order.
    pub fn shuffle<T>(&mut self, entries: &mut [T]) {
        for place in (1..entries.len()).rev() {
            entries.swap(place, self.below(place + 1));
        }
    }
}

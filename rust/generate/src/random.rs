//! A seeded generator (splitmix64): the same seed gives the same inputs.

use std::ops::RangeInclusive;

pub struct Random(u64);

impl Random {
    pub fn new(seed: u64) -> Random {
        Random(seed)
    }

    /// The next 64 bits.
    fn next(&mut self) -> u64 {
        self.0 = self.0.wrapping_add(0x9E37_79B9_7F4A_7C15);
        let mut mixed = self.0;
        mixed = (mixed ^ (mixed >> 30)).wrapping_mul(0xBF58_476D_1CE4_E5B9);
        mixed = (mixed ^ (mixed >> 27)).wrapping_mul(0x94D0_49BB_1331_11EB);
        mixed ^ (mixed >> 31)
    }

    /// A number below the limit. The limit must not be 0.
    pub fn below(&mut self, limit: usize) -> usize {
        (self.next() % limit as u64) as usize
    }

    /// A number from the range. The range must not be empty.
    pub fn within(&mut self, range: RangeInclusive<usize>) -> usize {
        range.start() + self.below(range.end() - range.start() + 1)
    }

    /// True once in `times` times, on average.
    pub fn one_in(&mut self, times: usize) -> bool {
        self.below(times) == 0
    }

    /// One of the values. There must be at least one.
    pub fn pick<T: Copy>(&mut self, values: &[T]) -> T {
        values[self.below(values.len())]
    }

    /// Half of the time the first number of the range, otherwise any of it: a rule's
    /// limit is more telling than what lies far beyond it.
    pub fn edge(&mut self, range: RangeInclusive<usize>) -> usize {
        if self.one_in(2) {
            *range.start()
        } else {
            self.within(range)
        }
    }

    /// Any byte but this one.
    pub fn other_byte(&mut self, than: u8) -> u8 {
        than.wrapping_add(self.within(1..=255) as u8)
    }

    pub fn bytes(&mut self, length: usize) -> Vec<u8> {
        let mut bytes = Vec::with_capacity(length + 8);
        while bytes.len() < length {
            bytes.extend(self.next().to_le_bytes());
        }
        bytes.truncate(length);
        bytes
    }

    /// 32-bit numbers, none of them 0.
    pub fn words(&mut self, length: usize) -> Vec<u32> {
        (0..length).map(|_| self.next() as u32 | 1).collect()
    }
}

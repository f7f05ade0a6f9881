//! Numbers that are the same in each run.
use std::ops::Range;

/// A generator of numbers, from a seed other than 0.
pub struct Random(pub u64);

impl Random {
    /// A number less than the bound, which must not be 0.
    pub fn below(&mut self, bound: usize) -> usize {
        self.0 ^= self.0 << 13;
        self.0 ^= self.0 >> 7;
        self.0 ^= self.0 << 17;
        ((self.0 >> 11) % bound as u64) as usize
    }

    /// A range inside another one; one in four is empty.
    pub fn range(&mut self, within: &Range<usize>) -> Range<usize> {
        let mut place = || within.start + self.below(within.len() + 1);
        let (one, other) = (place(), place());
        if self.below(4) == 0 { one..one } else { one.min(other)..one.max(other) }
    }
}

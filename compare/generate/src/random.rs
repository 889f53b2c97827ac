//! Seeded random numbers (splitmix64).

use std::ops::RangeInclusive;

pub struct Random(u64);

impl Random {
    /// A stream of its own for each seed, operation and case, so that a case is the same whichever
    /// others are made beside it.
    pub fn new(seed: u64, op: u8, case: u64) -> Random {
        let mut random = Random(seed);
        random.0 = random.next() ^ u64::from(op) << 56 ^ case;
        random.next();
        random
    }

    pub fn next(&mut self) -> u64 {
        self.0 = self.0.wrapping_add(0x9e37_79b9_7f4a_7c15);
        let mut mixed = self.0;
        mixed = (mixed ^ mixed >> 30).wrapping_mul(0xbf58_476d_1ce4_e5b9);
        mixed = (mixed ^ mixed >> 27).wrapping_mul(0x94d0_49bb_1331_11eb);
        mixed ^ mixed >> 31
    }

    pub fn below(&mut self, bound: usize) -> usize {
        (self.next() % bound as u64) as usize
    }

    pub fn within(&mut self, range: RangeInclusive<usize>) -> usize {
        range.start() + self.below(range.end() - range.start() + 1)
    }

    pub fn percent(&mut self, share: usize) -> bool {
        self.below(100) < share
    }

    pub fn pick<T: Clone>(&mut self, from: &[T]) -> T {
        from[self.below(from.len())].clone()
    }

    /// A word of any length in bits, so that small and large ones are alike frequent.
    pub fn word(&mut self) -> u32 {
        (self.next() as u32) >> self.below(32)
    }
}

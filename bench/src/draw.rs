//! Draws for the benchmark and the pictures, in whole numbers alone, so that a seed gives the same on every computer.

use second::Random;

pub struct Draw(Random);

impl Draw {
    pub fn new(seed: u64) -> Draw {
        Draw(Random::new(seed))
    }

    /// A number below `bound`, which is at most 2^32.
    pub fn below(&mut self, bound: usize) -> usize {
        (((self.0.next() >> 32) * bound as u64) >> 32) as usize
    }

    /// Noise of mean 0 and the given spread (standard deviation): a sum of twelve draws, never beyond six spreads.
    pub fn noise(&mut self, spread: i64) -> i64 {
        let sum: i64 = (0..12).map(|_| self.below(1 << 16) as i64).sum();
        (sum - 6 * 65535) * spread / 65536
    }
}

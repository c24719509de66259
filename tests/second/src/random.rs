//! Seeded numbers: splitmix64, so that one seed gives the same cases everywhere.

pub struct Random {
    state: u64,
}

impl Random {
    pub fn new(seed: u64) -> Random {
        Random { state: seed }
    }

    #[allow(clippy::should_implement_trait)]
    pub fn next(&mut self) -> u64 {
        self.state = self.state.wrapping_add(0x9e37_79b9_7f4a_7c15);
        let mut z = self.state;
        z = (z ^ (z >> 30)).wrapping_mul(0xbf58_476d_1ce4_e5b9);
        z = (z ^ (z >> 27)).wrapping_mul(0x94d0_49bb_1331_11eb);
        z ^ (z >> 31)
    }

    /// A number from 0 to n - 1; n is above zero.
    pub fn below(&mut self, n: u64) -> u64 {
        self.next() % n
    }

    /// A number from low to high, both among them; low is at most high.
    pub fn range(&mut self, low: i64, high: i64) -> i64 {
        let width = (high as i128 - low as i128 + 1) as u128;
        (low as i128 + (u128::from(self.next()) % width) as i128) as i64
    }

    pub fn symbol(&mut self, phases: u32) -> u8 {
        self.below(u64::from(phases)) as u8
    }

    pub fn word(&mut self, phases: u32, length: usize) -> Vec<u8> {
        (0..length).map(|_| self.symbol(phases)).collect()
    }

    /// Soft values over their whole range.
    pub fn values(&mut self, length: usize) -> Vec<i16> {
        (0..length).map(|_| self.next() as i16).collect()
    }

    /// One of these.
    pub fn pick<T: Copy>(&mut self, of: &[T]) -> T {
        of[self.below(of.len() as u64) as usize]
    }
}

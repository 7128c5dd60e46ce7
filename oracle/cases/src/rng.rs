//! Numbers by seed (SplitMix64): the same seed gives the same cases everywhere.

pub struct Rng {
    state: u64,
}

impl Rng {
    /// The numbers of one case of a seed, independent of every other case.
    pub fn of(seed: u64, case: u64) -> Rng {
        let mut rng = Rng { state: seed };
        rng.state = rng.draw() ^ case.wrapping_mul(0xD134_2543_DE82_EF95);
        rng
    }

    pub fn draw(&mut self) -> u64 {
        self.state = self.state.wrapping_add(0x9E37_79B9_7F4A_7C15);
        let z = self.state;
        let z = (z ^ z >> 30).wrapping_mul(0xBF58_476D_1CE4_E5B9);
        let z = (z ^ z >> 27).wrapping_mul(0x94D0_49BB_1331_11EB);
        z ^ z >> 31
    }

    pub fn word(&mut self) -> u32 {
        (self.draw() >> 32) as u32
    }

    /// 0 to `end` - 1.
    pub fn below(&mut self, end: usize) -> usize {
        ((u128::from(self.draw()) * end as u128) >> 64) as usize
    }

    /// `low` to `high`, both among them.
    pub fn range(&mut self, low: usize, high: usize) -> usize {
        low + self.below(high - low + 1)
    }

    pub fn percent(&mut self, percent: usize) -> bool {
        self.below(100) < percent
    }

    pub fn pick<T: Copy>(&mut self, from: &[T]) -> T {
        from[self.below(from.len())]
    }

    pub fn bytes(&mut self, length: usize) -> Vec<u8> {
        (0..length).map(|_| self.draw() as u8).collect()
    }
}

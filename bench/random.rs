//! Numbers at random, the same for the same seed.

/// The generator SplitMix64.
pub struct Random(u64);

impl Random {
    /// A generator of its own for each connection.
    pub fn new(seed: u64, connection: usize) -> Random {
        let mut random = Random(seed.wrapping_add(connection as u64) ^ 0x5349_5032);
        random.0 = random.next() ^ connection as u64;
        random
    }

    fn next(&mut self) -> u64 {
        self.0 = self.0.wrapping_add(0x9e37_79b9_7f4a_7c15);
        let mut mixed = self.0;
        mixed = (mixed ^ (mixed >> 30)).wrapping_mul(0xbf58_476d_1ce4_e5b9);
        mixed = (mixed ^ (mixed >> 27)).wrapping_mul(0x94d0_49bb_1331_11eb);
        mixed ^ (mixed >> 31)
    }

    /// A number below the bound, which is above 0.
    pub fn below(&mut self, bound: usize) -> usize {
        (self.next() % bound as u64) as usize
    }

    /// Whether one of so many chances in a hundred came.
    pub fn percent(&mut self, chances: u64) -> bool {
        self.next() % 100 < chances
    }
}

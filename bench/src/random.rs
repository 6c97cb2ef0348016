// Random numbers from a seed, the same everywhere.

/// Splitmix64.
pub struct Random(pub u64);

impl Random {
    pub fn next(&mut self) -> u64 {
        self.0 = self.0.wrapping_add(0x9E37_79B9_7F4A_7C15);
        let mut z = self.0;
        z = (z ^ (z >> 30)).wrapping_mul(0xBF58_476D_1CE4_E5B9);
        z = (z ^ (z >> 27)).wrapping_mul(0x94D0_49BB_1331_11EB);
        z ^ (z >> 31)
    }

    /// A number from 1 to `n`; 1 where `n` is 0.
    pub fn upto(&mut self, n: u32) -> u32 {
        (self.next() % u64::from(n.max(1))) as u32 + 1
    }

    /// Many numbers from 1 to `n`.
    pub fn many_upto(&mut self, n: u32, how_many: usize) -> Vec<u32> {
        (0..how_many).map(|_| self.upto(n)).collect()
    }
}

//! Random numbers from a seed: splitmix64.

/// A series of random numbers.
pub struct Random(pub u64);

impl Random {
    /// The next number.
    pub fn word(&mut self) -> u64 {
        self.0 = self.0.wrapping_add(0x9e37_79b9_7f4a_7c15);
        let mut word = self.0;
        word = (word ^ (word >> 30)).wrapping_mul(0xbf58_476d_1ce4_e5b9);
        word = (word ^ (word >> 27)).wrapping_mul(0x94d0_49bb_1331_11eb);
        word ^ (word >> 31)
    }

    /// A number from 0 to `most`.
    pub fn to(&mut self, most: u64) -> u64 {
        if most == u64::MAX {
            return self.word();
        }
        self.word() % (most + 1)
    }

    /// One of these.
    pub fn of<T: Copy>(&mut self, values: &[T]) -> T {
        values[self.to(values.len() as u64 - 1) as usize]
    }
}

//! Random numbers, the same for the same seed.

/// A generator of 64-bit numbers (splitmix).
pub struct Random(u64);

impl Random {
    pub fn new(seed: u64) -> Random {
        Random(seed)
    }

    pub fn number(&mut self) -> u64 {
        self.0 = self.0.wrapping_add(0x9E37_79B9_7F4A_7C15);
        let mut z = self.0;
        z = (z ^ (z >> 30)).wrapping_mul(0xBF58_476D_1CE4_E5B9);
        z = (z ^ (z >> 27)).wrapping_mul(0x94D0_49BB_1331_11EB);
        z ^ (z >> 31)
    }

    /// From a to b, both included.
    pub fn between(&mut self, a: i64, b: i64) -> i64 {
        a + (self.number() % (b - a + 1) as u64) as i64
    }

    pub fn pick<T: Copy>(&mut self, from: &[T]) -> T {
        from[self.between(0, from.len() as i64 - 1) as usize]
    }

    pub fn index(&mut self, n: usize) -> usize {
        self.between(0, n as i64 - 1) as usize
    }

    pub fn vector(&mut self, m: usize, size: i64) -> Vec<i64> {
        (0..m).map(|_| self.between(-size, size)).collect()
    }
}

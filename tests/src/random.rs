//! Random numbers from a fixed seed, so that a failure can be made again.

/// An xorshift generator.
pub struct Random(u64);

impl Random {
    pub fn new(seed: u64) -> Self {
        Random(seed.max(1))
    }

    pub fn word(&mut self) -> u64 {
        self.0 ^= self.0 << 13;
        self.0 ^= self.0 >> 7;
        self.0 ^= self.0 << 17;
        self.0
    }

    /// A number below `limit`, which isn't 0.
    pub fn below(&mut self, limit: u64) -> u64 {
        (self.word() >> 11) % limit
    }

    pub fn pick<T: Copy>(&mut self, from: &[T]) -> T {
        from[self.below(from.len() as u64) as usize]
    }

    /// A number of any size up to `limit`, with either sign: each length in digits is as likely as any other.
    pub fn any_length(&mut self, limit: i64) -> i64 {
        let digits = self.below(20) as u32;
        let top = 10_i64.checked_pow(digits).unwrap_or(i64::MAX).min(limit);
        let n = self.below(top as u64 + 1) as i64;
        if self.below(2) == 0 {
            n
        } else {
            -n
        }
    }
}

//! Numbers that look random and are the same at each run.

pub struct Random(u64);

impl Random {
    /// A sequence that begins at this seed, which is not 0.
    pub fn new(seed: u64) -> Random {
        Random(seed)
    }

    /// A number below a bound: xorshift, then the upper bits.
    pub fn below(&mut self, bound: usize) -> usize {
        self.0 ^= self.0 << 13;
        self.0 ^= self.0 >> 7;
        self.0 ^= self.0 << 17;
        ((self.0 >> 16) % bound as u64) as usize
    }

    /// True once in so many times.
    pub fn once_in(&mut self, times: usize) -> bool {
        self.below(times) == 0
    }
}

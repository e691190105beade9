//! Random numbers: the same seed gives the same ones everywhere.

/// A small generator (xorshift64*).
#[derive(Clone, Debug)]
pub struct Random(u64);

impl Random {
    pub fn new(seed: u64) -> Random {
        // The state must not be 0, and seeds that are alike are far apart after some steps.
        let mut random = Random(seed | 1);
        for _ in 0..8 {
            random.word();
        }
        random
    }

    pub fn word(&mut self) -> u64 {
        self.0 ^= self.0 >> 12;
        self.0 ^= self.0 << 25;
        self.0 ^= self.0 >> 27;
        self.0.wrapping_mul(0x2545_F491_4F6C_DD1D)
    }

    pub fn words<const COUNT: usize>(&mut self) -> [u64; COUNT] {
        std::array::from_fn(|_| self.word())
    }

    /// With 48 random bits the bias is below one in a thousand million for every limit in use.
    pub fn below(&mut self, limit: usize) -> usize {
        ((self.word() >> 16) % limit as u64) as usize
    }

    /// The number of a line, a chip or a task.
    pub fn number(&mut self, limit: u32) -> u32 {
        self.below(limit as usize) as u32
    }

    pub fn chance(&mut self, percent: usize) -> bool {
        self.below(100) < percent
    }

    pub fn pick<T: Copy>(&mut self, from: &[T]) -> T {
        from[self.below(from.len())]
    }

    pub fn byte(&mut self) -> u8 {
        (self.word() >> 32) as u8
    }

    pub fn bytes(&mut self, length: usize) -> Vec<u8> {
        (0..length).map(|_| self.byte()).collect()
    }

    pub fn array<const LENGTH: usize>(&mut self) -> [u8; LENGTH] {
        std::array::from_fn(|_| self.byte())
    }
}

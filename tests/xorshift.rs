//! The generator of the tests' samples: it repeats itself from run to run. Each test package includes this file.

/// Marsaglia's xorshift with 64 bits and the shifts 13, 7, 17.
pub struct Xorshift(u64);

impl Xorshift {
    /// A generator; different seeds other than 0 give different values.
    pub fn new(seed: u64) -> Self {
        assert!(seed != 0, "xorshift never leaves the seed 0");
        Xorshift(seed)
    }

    /// 64 bits.
    pub fn bits(&mut self) -> u64 {
        self.0 ^= self.0 << 13;
        self.0 ^= self.0 >> 7;
        self.0 ^= self.0 << 17;
        self.0
    }

    /// A whole number from 0 to limit - 1.
    pub fn below(&mut self, limit: usize) -> usize {
        ((self.bits() >> 11) % limit as u64) as usize
    }

    /// A whole number from least to most.
    pub fn between(&mut self, least: usize, most: usize) -> usize {
        least + self.below(most - least + 1)
    }

    /// Whether a thing happens that does so once in `times`.
    pub fn once_in(&mut self, times: usize) -> bool {
        self.below(times) == 0
    }

    /// One of the choices.
    pub fn pick<T: Copy>(&mut self, choices: &[T]) -> T {
        choices[self.below(choices.len())]
    }
}

//! Numbers from a fixed seed.

use std::io::{Write, stderr};

pub struct Random(u64);

impl Random {
    pub fn new(seed: u64) -> Self {
        Random(seed)
    }

    /// The seed is printed past the test runner, which keeps back what a passing test prints.
    pub fn seeded(test: &str, seed: u64) -> Self {
        let line = format!("{test}: seed {seed:#x}\n");
        stderr().write_all(line.as_bytes()).expect("a place to print to");
        Random::new(seed)
    }

    pub fn number(&mut self) -> u64 {
        self.0 ^= self.0 << 13;
        self.0 ^= self.0 >> 7;
        self.0 ^= self.0 << 17;
        self.0.wrapping_mul(0x2545_F491_4F6C_DD1D)
    }

    pub fn below(&mut self, n: u64) -> u64 {
        (self.number() >> 11) % n
    }

    pub fn one_in(&mut self, n: u64) -> bool {
        self.below(n) == 0
    }

    pub fn index(&mut self, len: usize) -> usize {
        self.below(len as u64) as usize
    }

    pub fn pick<T: Copy>(&mut self, from: &[T]) -> T {
        from[self.index(from.len())]
    }

    /// From `low` to `high`, both included.
    pub fn within(&mut self, low: i64, high: i64) -> i64 {
        low + self.below((high - low + 1) as u64) as i64
    }

    /// A buffer full of noise.
    pub fn noise<T>(&mut self, len: usize, of: fn(u64) -> T) -> Vec<T> {
        (0..len).map(|_| of(self.number())).collect()
    }

    pub fn bytes(&mut self, len: usize) -> Vec<u8> {
        self.noise(len, |v| (v >> 32) as u8)
    }
}

/// How many cases a test runs: LAYERS_CASES, or its own default. No cases would compare nothing and pass.
pub fn cases(default: u64) -> u64 {
    let Some(asked) = std::env::var_os("LAYERS_CASES") else { return default };
    let number = asked.to_str().and_then(|text| text.parse().ok()).filter(|&number| number > 0);
    number.unwrap_or_else(|| panic!("LAYERS_CASES is {asked:?}: it must be a number of cases, 1 or more"))
}

//! Fixed sequences: the same seed gives the same calls on every machine. A permuted congruential generator.

pub struct Random {
    state: u64,
}

impl Random {
    pub fn new(seed: u64) -> Random {
        let mut random = Random { state: seed.wrapping_mul(0x9E6C_63D0_876A_46AD) };
        random.next();
        random
    }

    fn next(&mut self) -> u32 {
        let state = self.state;
        self.state = state.wrapping_mul(6_364_136_223_846_793_005).wrapping_add(1_442_695_040_888_963_407);
        ((((state >> 18) ^ state) >> 27) as u32).rotate_right((state >> 59) as u32)
    }

    /// A number from 0 to below the bound.
    pub fn below(&mut self, bound: usize) -> usize {
        ((u64::from(self.next()) * bound as u64) >> 32) as usize
    }

    /// A number within the bounds, both included.
    pub fn within(&mut self, low: usize, high: usize) -> usize {
        low + self.below(high - low + 1)
    }

    /// True once in so many times.
    pub fn once_in(&mut self, times: usize) -> bool {
        self.below(times) == 0
    }

    pub fn pick<T: Copy>(&mut self, from: &[T]) -> T {
        *self.one_of(from)
    }

    pub fn one_of<'a, T>(&mut self, from: &'a [T]) -> &'a T {
        &from[self.below(from.len())]
    }

    pub fn phase(&mut self) -> u8 {
        self.below(4) as u8
    }

    pub fn octets(&mut self, n: usize) -> Vec<u8> {
        (0..n).map(|_| self.below(256) as u8).collect()
    }

    pub fn byte(&mut self) -> i8 {
        self.below(256) as u8 as i8
    }

    /// Noise of about the given spread: a sum of even steps, so that no machine's arithmetic matters.
    pub fn noise(&mut self, spread: f32) -> f32 {
        let sum: i64 = (0..4).map(|_| self.below(1 << 16) as i64 - (1 << 15)).sum();
        sum as f32 / 37_837.0 * spread
    }
}

//! A generator of numbers (splitmix64).

#[derive(Clone, Debug)]
pub struct Rng(u64);

impl Rng {
    pub fn new(seed: u64) -> Self {
        Self(seed)
    }

    /// The generator of one case, so that a case can be made again without those before it.
    pub fn of_case(seed: u64, subject: u64, case: u64) -> Self {
        let mut rng = Self(seed);
        let mut mixed = Self(rng.word() ^ subject);
        Self(mixed.word() ^ case.wrapping_mul(0x2545_f491_4f6c_dd1d))
    }

    pub fn word(&mut self) -> u64 {
        self.0 = self.0.wrapping_add(0x9e37_79b9_7f4a_7c15);
        let mut z = self.0;
        z = (z ^ (z >> 30)).wrapping_mul(0xbf58_476d_1ce4_e5b9);
        z = (z ^ (z >> 27)).wrapping_mul(0x94d0_49bb_1331_11eb);
        z ^ (z >> 31)
    }

    /// A number below `n`.
    pub fn below(&mut self, n: usize) -> usize {
        (self.word() % n as u64) as usize
    }

    /// A number from `low` to `high`, both included.
    pub fn from_to(&mut self, low: usize, high: usize) -> usize {
        low + self.below(high - low + 1)
    }

    /// True once in `n` times.
    pub fn once_in(&mut self, n: usize) -> bool {
        self.below(n) == 0
    }

    /// A number from 0 to 1, 1 excluded.
    pub fn unit(&mut self) -> f64 {
        (self.word() >> 11) as f64 / (1u64 << 53) as f64
    }

    pub fn byte(&mut self) -> u8 {
        self.word() as u8
    }

    pub fn pick<T: Copy>(&mut self, from: &[T]) -> T {
        from[self.below(from.len())]
    }
}

#[cfg(test)]
mod tests {
    use super::*;

    #[test]
    fn numbers_are_fixed_by_the_seed() {
        assert_eq!(Rng::new(0).word(), 0xe220_a839_7b1d_cdaf); // splitmix64's published first number
        assert_ne!(Rng::of_case(1, 2, 3).word(), Rng::of_case(1, 2, 4).word());
        assert_ne!(Rng::of_case(1, 2, 3).word(), Rng::of_case(1, 3, 3).word());
    }
}

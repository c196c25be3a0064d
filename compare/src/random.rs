//! A small generator of random numbers (splitmix64): a seed gives the same records anywhere.

pub struct Random {
    state: u64,
}

impl Random {
    pub fn new(seed: u64) -> Self {
        Random { state: seed }
    }

    pub fn bits(&mut self) -> u32 {
        self.state = self.state.wrapping_add(0x9e37_79b9_7f4a_7c15);
        let mut z = self.state;
        z = (z ^ (z >> 30)).wrapping_mul(0xbf58_476d_1ce4_e5b9);
        z = (z ^ (z >> 27)).wrapping_mul(0x94d0_49bb_1331_11eb);
        ((z ^ (z >> 31)) >> 32) as u32
    }

    /// A whole number from 0 to `end - 1`; `end` is small beside 2^32, so the bias does not matter.
    pub fn below(&mut self, end: u32) -> u32 {
        ((u64::from(self.bits()) * u64::from(end)) >> 32) as u32
    }

    pub fn one_in(&mut self, n: u32) -> bool {
        self.below(n) == 0
    }

    pub fn pick<T: Copy>(&mut self, from: &[T]) -> T {
        from[self.below(from.len() as u32) as usize]
    }

    /// A float from `low` to `high`, both ends possible.
    pub fn between(&mut self, low: f32, high: f32) -> f32 {
        let share = f64::from(self.bits()) / f64::from(u32::MAX);
        let value = f64::from(low) + (f64::from(high) - f64::from(low)) * share;
        (value as f32).max(low).min(high)
    }

    /// A positive float up to `high` whose size is spread over `octaves` powers of two.
    pub fn small(&mut self, high: f32, octaves: u32) -> f32 {
        // 2^-k from its bits: a library's power function may differ between machines.
        let power = f64::from_bits(u64::from(1023 - self.below(octaves)) << 52);
        let part = f64::from(self.between(0.5, 1.0));
        (f64::from(high) * part * power) as f32
    }
}

#[cfg(test)]
mod tests {
    use super::Random;

    #[test]
    fn a_seed_gives_the_same_numbers_again() {
        let (mut a, mut b) = (Random::new(7), Random::new(7));
        assert!((0..100).all(|_| a.bits() == b.bits()));
    }

    #[test]
    fn numbers_keep_to_their_ends() {
        let mut random = Random::new(1);
        for _ in 0..1000 {
            assert!(random.below(3) < 3);
            assert!((0.25..=0.5).contains(&random.between(0.25, 0.5)));
            assert!((0.0..=0.25).contains(&random.small(0.25, 20)));
        }
    }
}

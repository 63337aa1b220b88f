//! Random numbers that depend on the seed alone (splitmix64).

pub struct Rng(u64);

impl Rng {
    pub fn new(seed: u64) -> Rng {
        Rng(seed)
    }

    /// A generator of its own for each seed and group, so that a change in one
    /// group leaves the others as they were.
    pub fn for_group(seed: u64, group: &str) -> Rng {
        let mut state = seed ^ 0x6d65_7269_6b6f_6869;
        for byte in group.bytes() {
            state = Rng(state ^ u64::from(byte)).next();
        }
        Rng(state)
    }

    #[allow(clippy::should_implement_trait)] // it never ends
    pub fn next(&mut self) -> u64 {
        self.0 = self.0.wrapping_add(0x9e37_79b9_7f4a_7c15);
        let mut z = self.0;
        z = (z ^ (z >> 30)).wrapping_mul(0xbf58_476d_1ce4_e5b9);
        z = (z ^ (z >> 27)).wrapping_mul(0x94d0_49bb_1331_11eb);
        z ^ (z >> 31)
    }

    /// A number from `low` to `high`, both included.
    pub fn between(&mut self, low: i64, high: i64) -> i64 {
        debug_assert!(low <= high);
        let span = (high - low) as u64 + 1;
        low + (self.next() % span) as i64
    }

    pub fn chance(&mut self, one_in: u64) -> bool {
        self.next() % one_in == 0
    }

    pub fn pick<T: Copy>(&mut self, from: &[T]) -> T {
        from[(self.next() % from.len() as u64) as usize]
    }
}

#[cfg(test)]
mod tests {
    use super::*;

    /// The first numbers of splitmix64 from 1234567, as its author gives them.
    #[test]
    fn known_numbers() {
        let mut rng = Rng::new(1_234_567);
        assert_eq!([rng.next(), rng.next()], [6_457_827_717_110_365_317, 3_203_168_211_198_807_973]);
    }

    #[test]
    fn ranges() {
        let mut rng = Rng::for_group(1, "ranges");
        let seen: Vec<i64> = (0..1000).map(|_| rng.between(-2, 2)).collect();
        assert!((-2..=2).all(|n| seen.contains(&n)) && seen.iter().all(|n| (-2..=2).contains(n)));
        assert_ne!(Rng::for_group(1, "a").next(), Rng::for_group(1, "b").next());
    }
}

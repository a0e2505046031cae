//! Random numbers that are the same for the same seed on every machine: xorshift64*.

pub struct Rng(u64);

impl Rng {
    pub fn new(seed: u64) -> Rng {
        let mut r = Rng((seed ^ 0x9e37_79b9_7f4a_7c15) | 1);
        for _ in 0..16 {
            r.next();
        }
        r
    }

    pub fn next(&mut self) -> u64 {
        let mut x = self.0;
        x ^= x >> 12;
        x ^= x << 25;
        x ^= x >> 27;
        self.0 = x;
        x.wrapping_mul(0x2545_f491_4f6c_dd1d)
    }

    pub fn word(&mut self) -> u32 {
        (self.next() >> 32) as u32
    }

    /// A number from `low` to `high`, both among them.
    pub fn range(&mut self, low: u32, high: u32) -> u32 {
        assert!(low <= high, "an empty range: {low} to {high}");
        let width = u64::from(high) - u64::from(low) + 1;
        (u64::from(low) + self.next() % width) as u32
    }

    /// As `range`, with small numbers as likely as large ones.
    pub fn scaled(&mut self, low: u32, high: u32) -> u32 {
        let bits = 64 - u64::from(high - low).leading_zeros();
        let top = (1u64 << self.range(0, bits)) - 1;
        let top = top.min(u64::from(high - low)) as u32;
        low + self.range(0, top)
    }

    pub fn index(&mut self, length: usize) -> usize {
        (self.next() % length as u64) as usize
    }

    pub fn pick<T: Copy>(&mut self, of: &[T]) -> T {
        of[self.index(of.len())]
    }

    /// True once in `times`.
    pub fn once_in(&mut self, times: u32) -> bool {
        self.range(1, times) == 1
    }
}

#[cfg(test)]
mod tests {
    use super::*;

    #[test]
    fn the_same_seed_gives_the_same_numbers() {
        let (mut a, mut b) = (Rng::new(7), Rng::new(7));
        assert!((0..1000).all(|_| a.next() == b.next()));
        assert_ne!(Rng::new(8).next(), Rng::new(7).next());
    }

    #[test]
    fn ranges_hold_both_ends() {
        let mut r = Rng::new(1);
        let seen: std::collections::BTreeSet<u32> = (0..1000).map(|_| r.range(3, 6)).collect();
        assert_eq!(seen.into_iter().collect::<Vec<_>>(), [3, 4, 5, 6]);
        assert!((0..1000).all(|_| (5..=77).contains(&r.scaled(5, 77))));
        assert_eq!(r.range(u32::MAX, u32::MAX), u32::MAX);
        assert_eq!(r.scaled(9, 9), 9);
        (0..1000).for_each(|_| {
            r.scaled(0, u32::MAX);
        });
    }
}

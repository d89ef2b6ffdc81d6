//! A small seeded source of numbers (splitmix64): the same numbers for the
//! same seed, on every machine.

/// The source.
#[derive(Clone, Debug)]
pub struct Random {
    state: u64,
}

impl Random {
    /// A source for this seed.
    pub fn new(seed: u64) -> Self {
        Random { state: seed }
    }

    /// A source of its own for one part of the work, so that parts do not
    /// disturb one another.
    pub fn branch(seed: u64, part: u64) -> Self {
        let mut random = Random::new(seed ^ part.wrapping_mul(0xD6E8_FEB8_6659_FD93));
        random.bits();
        random
    }

    /// The next 64 bits.
    pub fn bits(&mut self) -> u64 {
        self.state = self.state.wrapping_add(0x9E37_79B9_7F4A_7C15);
        let mut z = self.state;
        z = (z ^ (z >> 30)).wrapping_mul(0xBF58_476D_1CE4_E5B9);
        z = (z ^ (z >> 27)).wrapping_mul(0x94D0_49BB_1331_11EB);
        z ^ (z >> 31)
    }

    /// A number below `bound`, which is at least 1.
    pub fn below(&mut self, bound: usize) -> usize {
        (self.bits() % bound as u64) as usize
    }

    /// A number from `low` to `high`, both included.
    pub fn between(&mut self, low: u128, high: u128) -> u128 {
        low + u128::from(self.bits()) % (high - low + 1)
    }

    /// A number from 0 to `high`, small ones and large ones alike: first the
    /// count of its bits is drawn, then the number.
    pub fn spread(&mut self, high: u128) -> u128 {
        let length = self.below(65 - (high as u64).leading_zeros() as usize);
        self.between(0, (1 << length) - 1).min(high)
    }

    /// True once in `times` calls.
    pub fn once_in(&mut self, times: usize) -> bool {
        self.below(times) == 0
    }

    /// One of the things in a list that is not empty.
    pub fn pick<T: Copy>(&mut self, things: &[T]) -> T {
        things[self.below(things.len())]
    }

    /// A byte from 32 to 126.
    pub fn printable(&mut self) -> u8 {
        self.between(32, 126) as u8
    }
}

#[cfg(test)]
mod tests {
    use super::*;

    #[test]
    fn known_first_numbers() {
        let mut random = Random::new(0);
        assert_eq!(random.bits(), 0xE220_A839_7B1D_CDAF);
        assert_eq!(random.bits(), 0x6E78_9E6A_A1B9_65F4);
    }

    #[test]
    fn numbers_stay_in_their_bounds() {
        let mut random = Random::new(7);
        for _ in 0..1000 {
            assert!(random.below(5) < 5);
            assert!((3..=9).contains(&random.between(3, 9)));
            assert!(random.spread(500_000_000) <= 500_000_000);
            assert!((32..=126).contains(&random.printable()));
        }
    }
}

//! A small deterministic generator (splitmix64), so that a session can be made
//! again from its seed alone.

#[derive(Clone, Debug)]
pub struct Random {
    state: u64,
}

impl Random {
    pub fn new(seed: u64) -> Random {
        Random { state: seed }
    }

    /// The generator of one session among many: its own stream for each number.
    pub fn of_session(seed: u64, number: u64) -> Random {
        let mut mixed = Random::new(seed ^ number.wrapping_mul(0xD1B5_4A32_D192_ED03));
        mixed.bits();
        mixed
    }

    pub fn bits(&mut self) -> u64 {
        self.state = self.state.wrapping_add(0x9E37_79B9_7F4A_7C15);
        let mut mixed = self.state;
        mixed = (mixed ^ (mixed >> 30)).wrapping_mul(0xBF58_476D_1CE4_E5B9);
        mixed = (mixed ^ (mixed >> 27)).wrapping_mul(0x94D0_49BB_1331_11EB);
        mixed ^ (mixed >> 31)
    }

    /// A number from 0 to `count` − 1; 0 for an empty range.
    pub fn below(&mut self, count: u64) -> u64 {
        if count == 0 {
            return 0;
        }
        self.bits() % count
    }

    /// A number between two ends, both included; the lower end if they cross.
    pub fn between(&mut self, low: i64, high: i64) -> i64 {
        if high <= low {
            return low;
        }
        low + self.below((high - low) as u64 + 1) as i64
    }

    pub fn percent(&mut self, chance: u64) -> bool {
        self.below(100) < chance
    }

    pub fn pick<T: Copy>(&mut self, choices: &[T]) -> T {
        choices[self.below(choices.len() as u64) as usize]
    }
}

#[cfg(test)]
mod tests {
    use super::*;

    #[test]
    fn same_seed_same_numbers() {
        let mut one = Random::of_session(7, 3);
        let mut other = Random::of_session(7, 3);
        let mut next = Random::of_session(7, 4);
        let first: Vec<u64> = (0..8).map(|_| one.bits()).collect();
        let second: Vec<u64> = (0..8).map(|_| other.bits()).collect();
        assert_eq!(first, second);
        assert_ne!(first[0], next.bits());
    }

    #[test]
    fn stays_between_its_ends() {
        let mut random = Random::new(1);
        for _ in 0..1_000 {
            let number = random.between(-3, 4);
            assert!((-3..=4).contains(&number));
        }
        assert_eq!(random.between(5, 5), 5);
        assert_eq!(random.below(0), 0);
    }
}

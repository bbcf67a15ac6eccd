//! Seeded numbers (splitmix64): a run can be repeated from its seed alone.

pub struct Random {
    state: u64,
}

impl Random {
    pub fn from_seed(seed: u64) -> Random {
        Random { state: seed }
    }

    /// Every sheet has numbers of its own, so that one sheet can be made again
    /// without those before it, and a new family leaves the old ones as they were.
    pub fn for_sheet(seed: u64, family: &str, index: u64) -> Random {
        let mut mixed = Random::from_seed(seed).next();
        for byte in family.bytes() {
            mixed = Random::from_seed(mixed ^ u64::from(byte)).next();
        }
        Random::from_seed(Random::from_seed(mixed ^ index).next())
    }

    pub fn next(&mut self) -> u64 {
        self.state = self.state.wrapping_add(0x9E37_79B9_7F4A_7C15);
        let mut z = self.state;
        z = (z ^ (z >> 30)).wrapping_mul(0xBF58_476D_1CE4_E5B9);
        z = (z ^ (z >> 27)).wrapping_mul(0x94D0_49BB_1331_11EB);
        z ^ (z >> 31)
    }

    pub fn word(&mut self) -> u32 {
        (self.next() >> 32) as u32
    }

    pub fn byte(&mut self) -> u8 {
        (self.next() >> 56) as u8
    }

    /// From 0 up to, not including, the bound.
    pub fn below(&mut self, bound: u32) -> u32 {
        assert!(bound > 0, "no number is below 0");
        ((u64::from(self.word()) * u64::from(bound)) >> 32) as u32
    }

    pub fn place_in(&mut self, length: usize) -> usize {
        self.below(u32::try_from(length).expect("sheets are far shorter")) as usize
    }

    /// Both ends included.
    pub fn between(&mut self, low: u32, high: u32) -> u32 {
        low + self.below(high - low + 1)
    }

    pub fn one_in(&mut self, times: u32) -> bool {
        self.below(times) == 0
    }

    pub fn pick<T: Copy>(&mut self, from: &[T]) -> T {
        from[self.place_in(from.len())]
    }

    pub fn shuffle<T>(&mut self, items: &mut [T]) {
        for last in (1..items.len()).rev() {
            let other = self.place_in(last + 1);
            items.swap(last, other);
        }
    }

    pub fn bytes(&mut self, length: usize) -> Vec<u8> {
        (0..length).map(|_| self.byte()).collect()
    }
}

#[cfg(test)]
mod tests {
    use super::Random;

    #[test]
    fn known_first_number() {
        assert_eq!(Random::from_seed(0).next(), 0xE220_A839_7B1D_CDAF);
    }

    #[test]
    fn sheets_have_numbers_of_their_own() {
        let first = |seed, family, index| Random::for_sheet(seed, family, index).next();
        assert_eq!(first(1, "a", 0), first(1, "a", 0));
        assert_ne!(first(1, "a", 0), first(2, "a", 0));
        assert_ne!(first(1, "a", 0), first(1, "b", 0));
        assert_ne!(first(1, "a", 0), first(1, "a", 1));
    }

    #[test]
    fn between_reaches_both_ends_and_nothing_else() {
        let mut random = Random::from_seed(7);
        let mut seen = [0u32; 10];
        for _ in 0..1000 {
            seen[random.between(3, 6) as usize] += 1;
        }
        assert!(seen[3..=6].iter().all(|&times| times > 0));
        assert_eq!(seen.iter().sum::<u32>(), seen[3..=6].iter().sum::<u32>());
    }
}

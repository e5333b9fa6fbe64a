//! A small deterministic generator (SplitMix64).

#[derive(Debug, Clone)]
pub struct Random {
    state: u64,
}

impl Random {
    /// The generator of one case: cases do not depend on one another.
    pub fn of_case(seed: u64, kind: u64, case: u64) -> Self {
        let mut mixed = Self { state: seed };
        mixed.state = mixed.next() ^ kind;
        mixed.state = mixed.next() ^ case;
        mixed.next();
        mixed
    }

    fn next(&mut self) -> u64 {
        self.state = self.state.wrapping_add(0x9E37_79B9_7F4A_7C15);
        let mut z = self.state;
        z = (z ^ (z >> 30)).wrapping_mul(0xBF58_476D_1CE4_E5B9);
        z = (z ^ (z >> 27)).wrapping_mul(0x94D0_49BB_1331_11EB);
        z ^ (z >> 31)
    }

    pub fn number(&mut self) -> u32 {
        self.next() as u32
    }

    pub fn byte(&mut self) -> u8 {
        self.next() as u8
    }

    /// A number from `least` to `greatest`.
    pub fn between(&mut self, least: u32, greatest: u32) -> u32 {
        debug_assert!(least <= greatest);
        let span = u64::from(greatest - least) + 1;
        least + (((self.next() >> 32) * span) >> 32) as u32
    }

    /// A place in a list of so many entries.
    pub fn below(&mut self, count: usize) -> usize {
        self.between(0, count as u32 - 1) as usize
    }

    /// True in so many of a hundred cases.
    pub fn percent(&mut self, share: u32) -> bool {
        self.between(1, 100) <= share
    }

    pub fn pick<T: Copy>(&mut self, list: &[T]) -> T {
        list[self.below(list.len())]
    }

    pub fn bytes(&mut self, count: usize) -> Vec<u8> {
        (0..count).map(|_| self.byte()).collect()
    }
}

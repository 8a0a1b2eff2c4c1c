//! A small deterministic generator of random numbers (splitmix64).

pub struct Chance {
    state: u64,
}

impl Chance {
    /// Each case has a start of its own, so that it can be had again alone.
    pub fn new(seed: u64, place: u64, case: u64) -> Chance {
        let mut state = seed;
        for part in [place, case] {
            let mut mixing = Chance {
                state: state ^ part.wrapping_mul(0x9E37_79B9_7F4A_7C15),
            };
            state = mixing.number();
        }
        Chance { state }
    }

    pub fn number(&mut self) -> u64 {
        self.state = self.state.wrapping_add(0x9E37_79B9_7F4A_7C15);
        let mut mixed = self.state;
        mixed = (mixed ^ (mixed >> 30)).wrapping_mul(0xBF58_476D_1CE4_E5B9);
        mixed = (mixed ^ (mixed >> 27)).wrapping_mul(0x94D0_49BB_1331_11EB);
        mixed ^ (mixed >> 31)
    }

    /// A number from 0 up to, but not, the bound.
    pub fn below(&mut self, bound: usize) -> usize {
        (self.number() % bound as u64) as usize
    }

    /// A number from low to high, both included.
    pub fn between(&mut self, low: i64, high: i64) -> i64 {
        low + (self.number() % (high - low + 1) as u64) as i64
    }

    pub fn one_in(&mut self, count: usize) -> bool {
        self.below(count) == 0
    }

    pub fn pick<T: Copy>(&mut self, from: &[T]) -> T {
        from[self.below(from.len())]
    }

    pub fn bytes(&mut self, count: usize) -> Vec<u8> {
        (0..count).map(|_| self.number() as u8).collect()
    }

    pub fn numbers(&mut self, count: usize) -> Vec<u32> {
        (0..count).map(|_| self.number() as u32).collect()
    }

    /// A 4-byte number near one of document 01's limits or the type's own.
    pub fn near_a_limit(&mut self) -> u32 {
        let limit = self.pick(&[
            0,
            1,
            8,
            1_000,
            65_535,
            10_000_000,
            1_000_000_000,
            1 << 31,
            u32::MAX,
        ]);
        match self.below(4) {
            0 => limit.wrapping_sub(1),
            1 => limit.wrapping_add(1),
            _ => limit,
        }
    }
}

//! Random numbers (splitmix64). Each history has dice of its own, made from
//! the seed and its number, so that a history is the same however many others
//! are run.

pub struct Dice(u64);

impl Dice {
    pub fn new(seed: u64, history: u64) -> Dice {
        let mut dice = Dice(seed);
        let mixed = dice.throw();
        Dice(mixed ^ history.wrapping_mul(0xd134_2543_de82_ef95))
    }

    fn throw(&mut self) -> u64 {
        self.0 = self.0.wrapping_add(0x9e37_79b9_7f4a_7c15);
        let mut z = self.0;
        z = (z ^ (z >> 30)).wrapping_mul(0xbf58_476d_1ce4_e5b9);
        z = (z ^ (z >> 27)).wrapping_mul(0x94d0_49bb_1331_11eb);
        z ^ (z >> 31)
    }

    /// From `least` to `most`, both included.
    pub fn between(&mut self, least: u64, most: u64) -> u64 {
        assert!(least <= most && most - least < u64::MAX);
        least + self.throw() % (most - least + 1)
    }

    pub fn chance(&mut self, percent: u64) -> bool {
        self.between(0, 99) < percent
    }

    pub fn pick<T: Copy>(&mut self, from: &[T]) -> T {
        from[self.between(0, from.len() as u64 - 1) as usize]
    }
}

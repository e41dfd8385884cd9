//! What is drawn from a seed.

/// A generator of numbers.
pub struct Dice(u64);

impl Dice {
    /// The dice of a seed, from which all that they draw follows.
    pub fn of(seed: u64) -> Dice {
        let mut dice = Dice(seed);
        dice.below(1);
        dice
    }

    /// A number below this one; 0 where there is none.
    pub fn below(&mut self, limit: usize) -> usize {
        self.0 = self.0.wrapping_mul(6_364_136_223_846_793_005).wrapping_add(1_442_695_040_888_963_407);
        (self.0 >> 33) as usize % limit.max(1)
    }

    /// What happens once in so many times.
    pub fn once_in(&mut self, times: usize) -> bool {
        self.below(times) == 0
    }
}

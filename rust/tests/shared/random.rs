//! Random numbers that come again for the same seed.

/// A generator after splitmix64: a counter that is mixed.
pub struct Random(u64);

const STEP: u64 = 0x9E37_79B9_7F4A_7C15;

/// A number in which every bit of the given one has a say.
fn mixed(mut number: u64) -> u64 {
    number = (number ^ number >> 30).wrapping_mul(0xBF58_476D_1CE4_E5B9);
    number = (number ^ number >> 27).wrapping_mul(0x94D0_49BB_1331_11EB);
    number ^ number >> 31
}

/// The seed of case number `index` of a run.
pub fn case_seed(base: u64, index: u64) -> u64 {
    mixed(base.wrapping_add(STEP.wrapping_mul(index + 1)))
}

impl Random {
    pub fn new(seed: u64) -> Random {
        Random(mixed(seed))
    }

    pub fn next(&mut self) -> u64 {
        self.0 = self.0.wrapping_add(STEP);
        mixed(self.0)
    }

    /// A number below `bound`, which is not 0.
    pub fn below(&mut self, bound: usize) -> usize {
        ((u128::from(self.next()) * bound as u128) >> 64) as usize
    }

    /// A number from `least` to `most`, both among them.
    pub fn between(&mut self, least: i32, most: i32) -> i32 {
        least + self.below((most - least + 1) as usize) as i32
    }

    /// True in so many of 100 cases.
    pub fn percent(&mut self, chance: i32) -> bool {
        self.between(1, 100) <= chance
    }

    pub fn bit(&mut self) -> bool {
        self.below(2) == 1
    }

    pub fn byte(&mut self) -> u8 {
        self.below(256) as u8
    }

    pub fn bytes(&mut self, count: usize) -> Vec<u8> {
        (0..count).map(|_| self.byte()).collect()
    }

    pub fn pick<T: Clone>(&mut self, from: &[T]) -> T {
        from[self.below(from.len())].clone()
    }

    /// Puts the elements into a random order.
    pub fn shuffle<T>(&mut self, elements: &mut [T]) {
        for last in (1..elements.len()).rev() {
            elements.swap(last, self.below(last + 1));
        }
    }
}

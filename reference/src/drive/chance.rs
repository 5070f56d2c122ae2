//! Chance that follows from a seed and a number alone, so that an input can
//! be made again by itself.

pub struct Chance(u64);

impl Chance {
    pub fn of(seed: u64, number: u64) -> Chance {
        let start = Chance(seed).bits().wrapping_add(number);
        Chance(Chance(start).bits())
    }

    /// SplitMix64: neighbouring seeds give unlike rows of numbers.
    fn bits(&mut self) -> u64 {
        self.0 = self.0.wrapping_add(0x9E37_79B9_7F4A_7C15);
        let mixed = (self.0 ^ (self.0 >> 30)).wrapping_mul(0xBF58_476D_1CE4_E5B9);
        let mixed = (mixed ^ (mixed >> 27)).wrapping_mul(0x94D0_49BB_1331_11EB);
        mixed ^ (mixed >> 31)
    }

    pub fn below(&mut self, bound: usize) -> usize {
        (self.bits() % bound as u64) as usize
    }

    pub fn between(&mut self, least: usize, most: usize) -> usize {
        least + self.below(most - least + 1)
    }

    pub fn one_in(&mut self, count: usize) -> bool {
        self.below(count) == 0
    }

    pub fn one_of<T: Copy>(&mut self, choices: &[T]) -> T {
        choices[self.below(choices.len())]
    }

    pub fn some_of<T: Copy>(&mut self, choices: &[T], count: usize) -> Vec<T> {
        (0..count).map(|_| self.one_of(choices)).collect()
    }

    pub fn shuffle<T>(&mut self, things: &mut [T]) {
        for i in (1..things.len()).rev() {
            things.swap(i, self.below(i + 1));
        }
    }

    /// The start and the end of some part that is not empty.
    pub fn part(&mut self, length: usize) -> (usize, usize) {
        let start = self.below(length);
        (start, self.between(start + 1, length))
    }
}

//! Random codes and names.

/// Xorshift, seeded by the test, so that each run is the same.
pub struct Chance(pub u64);

impl Chance {
    pub fn below(&mut self, bound: usize) -> usize {
        self.0 ^= self.0 << 13;
        self.0 ^= self.0 >> 7;
        self.0 ^= self.0 << 17;
        ((self.0 >> 16) % bound as u64) as usize
    }

    pub fn one_of<T: Copy>(&mut self, choices: &[T]) -> T {
        choices[self.below(choices.len())]
    }

    pub fn some_of<T: Copy>(&mut self, choices: &[T], count: usize) -> Vec<T> {
        (0..count).map(|_| self.one_of(choices)).collect()
    }

    /// Up to so many codes over few bands, so that they overlap and contain
    /// each other often.
    pub fn codes(&mut self, most: usize) -> Vec<String> {
        let bands = self.one_of(&["A", "AB", "AB", "ABC", "ABC", "ABCDEFGZ"]);
        let longest = 1 + self.below(7);
        let count = 1 + self.below(most);
        (0..count).map(|_| self.code(bands, longest)).collect()
    }

    pub fn code(&mut self, bands: &str, longest: usize) -> String {
        let length = 1 + self.below(longest);
        let bands: Vec<char> = bands.chars().collect();
        self.some_of(&bands, length).into_iter().collect()
    }

    /// So many different names, with commas and quotes in them.
    pub fn names(&mut self, count: usize) -> Vec<String> {
        let bytes: Vec<char> = " ~,,\"\"xYz'".chars().collect();
        let mut names = Vec::new();
        for number in 0..count {
            let length = self.below(20);
            let start: String = self.some_of(&bytes, length).into_iter().collect();
            names.push(format!("{start}{number}"));
        }
        names
    }
}

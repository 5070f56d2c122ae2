//! Draws that follow from a seed alone.

const FACTOR: u64 = 48_271;
const MODULUS: u64 = 2_147_483_647;

pub struct Draws(u64);

impl Draws {
    pub fn of(seed: u32) -> Draws {
        Draws(seed.into())
    }

    pub fn next(&mut self) -> u64 {
        self.0 = self.0 % MODULUS * FACTOR % MODULUS;
        self.0
    }

    /// A number below another.
    pub fn draw(&mut self, below: usize) -> usize {
        (self.next() % below as u64) as usize
    }

    /// Bands of so many letters.
    pub fn bands(&mut self, length: usize, letters: usize) -> Vec<u8> {
        (0..length).map(|_| self.band(letters)).collect()
    }

    pub fn band(&mut self, letters: usize) -> u8 {
        b'A' + self.draw(letters) as u8
    }
}

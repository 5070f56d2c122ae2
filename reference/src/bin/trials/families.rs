//! The families of lists that are made: their codes.

use crate::draws::Draws;

pub type Code = Vec<u8>;

#[derive(Clone, Copy, Debug, PartialEq)]
pub enum Family {
    Ties,
    Palindromes,
    Nested,
    Chains,
    Full,
}

impl Family {
    pub fn named(word: &str) -> Option<Family> {
        match word {
            "ties" => Some(Family::Ties),
            "palindromes" => Some(Family::Palindromes),
            "nested" => Some(Family::Nested),
            "chains" => Some(Family::Chains),
            "full" => Some(Family::Full),
            _ => None,
        }
    }

    /// The codes of the case that has this number among those of its line.
    pub fn codes(self, number: u32, draws: &mut Draws) -> Vec<Code> {
        match self {
            Family::Ties => ties(draws),
            Family::Palindromes => palindromes(draws),
            Family::Nested => nested(draws),
            Family::Chains => chains(draws),
            Family::Full => full(number, draws),
        }
    }
}

/// Short codes of two letters.
fn ties(draws: &mut Draws) -> Vec<Code> {
    let count = 2 + draws.draw(11);
    let mut code = |_| {
        let length = 1 + draws.draw(6);
        draws.bands(length, 2)
    };
    (0..count).map(&mut code).collect()
}

/// Codes that mostly read alike both ways.
fn palindromes(draws: &mut Draws) -> Vec<Code> {
    let count = 2 + draws.draw(9);
    let letters = 2 + draws.draw(2);
    (0..count).map(|_| palindrome(letters, draws)).collect()
}

fn palindrome(letters: usize, draws: &mut Draws) -> Code {
    let length = 1 + draws.draw(9);
    let plain = draws.draw(4) == 0;
    let mut code = Code::new();
    for i in 0..length {
        let fresh = plain || i < length.div_ceil(2);
        code.push(match fresh {
            true => draws.band(letters),
            false => code[length - 1 - i],
        });
    }
    code
}

/// Codes that mostly are parts of others, either way.
fn nested(draws: &mut Draws) -> Vec<Code> {
    let count = 2 + draws.draw(15);
    let length = 8 + draws.draw(57);
    let mut codes = vec![draws.bands(length, 3)];
    while codes.len() < count {
        codes.push(match draws.draw(5) {
            0 => {
                let length = 1 + draws.draw(10);
                draws.bands(length, 3)
            }
            _ => {
                let outer = &codes[draws.draw(codes.len())];
                let length = 1 + draws.draw(outer.len());
                part(outer, length, draws)
            }
        });
    }
    codes
}

/// Parts of one word, either way.
fn chains(draws: &mut Draws) -> Vec<Code> {
    let length = 40 + draws.draw(60);
    let word = draws.bands(length, 4);
    let count = 3 + draws.draw(18);
    let mut code = |_| {
        let length = 4 + draws.draw(12);
        part(&word, length, draws)
    };
    (0..count).map(&mut code).collect()
}

/// So many neighbouring bands of a word, either way.
fn part(word: &[u8], length: usize, draws: &mut Draws) -> Code {
    let start = draws.draw(word.len() - length + 1);
    let mut code = word[start..][..length].to_vec();
    if draws.draw(2) == 1 {
        code.reverse();
    }
    code
}

/// As many codes as a list may have, all of them long.
fn full(number: u32, draws: &mut Draws) -> Vec<Code> {
    let mut code = |_| {
        let length = 64 - draws.draw(8);
        match number % 3 {
            0 => draws.bands(length, 2),
            1 => draws.bands(length, 26),
            _ => mostly_one_letter(length, draws),
        }
    };
    (0..128).map(&mut code).collect()
}

fn mostly_one_letter(length: usize, draws: &mut Draws) -> Code {
    let mut band = |_| match draws.draw(32) {
        0 => b'B',
        _ => b'A',
    };
    (0..length).map(&mut band).collect()
}

//! Lists of codes full of ties: codes in codes, turned forms, palindromes,
//! equal codes and overlaps of every kind.

use reference::drive::chance::Chance;

pub type Code = Vec<u8>;

pub const MOST_CODES: usize = 128;
pub const MOST_BANDS: usize = 64;

pub fn few(chance: &mut Chance) -> Vec<Code> {
    let (count, longest) = (chance.between(1, 8), chance.between(2, 10));
    family(chance, count, longest)
}

pub fn middle(chance: &mut Chance) -> Vec<Code> {
    let (count, longest) = (chance.between(10, 40), chance.between(3, 24));
    match chance.below(3) {
        0 => parts_of_a_text(chance, count, longest),
        _ => family(chance, count, longest),
    }
}

pub fn many(chance: &mut Chance) -> Vec<Code> {
    let (count, longest) = (chance.between(60, MOST_CODES), chance.between(4, 16));
    match chance.below(2) {
        0 => parts_of_a_text(chance, count, longest),
        _ => family(chance, count, longest),
    }
}

/// As many codes as a list may have, as long as they may be: they share
/// little, so the ribbon is long.
pub fn largest(chance: &mut Chance) -> Vec<Code> {
    let letters = match chance.below(2) {
        0 => (b'A'..=b'Z').collect(),
        _ => letters(chance),
    };
    let code = |_| chance.some_of(&letters, MOST_BANDS);
    (0..MOST_CODES).map(code).collect()
}

/// As large, and many overlaps are long.
pub fn largest_alike(chance: &mut Chance) -> Vec<Code> {
    let letters = letters(chance);
    let period = chance.between(MOST_BANDS + 1, 200);
    let ring = chance.some_of(&letters, period).repeat(5);
    let text = chance.some_of(&letters, 3_000);
    let manner = chance.below(3);
    let code = |_| match manner {
        0 => window(chance, &text, MOST_BANDS),
        1 => window(chance, &ring, MOST_BANDS),
        _ => one_band_changed(chance, &letters, &ring[..MOST_BANDS]),
    };
    (0..MOST_CODES).map(code).collect()
}

/// All words of one length over a few letters: nearly every join is a tie.
pub fn words_of_one_length(chance: &mut Chance) -> Vec<Code> {
    let letters = letters(chance);
    let mut words = vec![Code::new()];
    for _ in 0..chance.between(1, 4) {
        let longer = |word: &Code| letters.iter().map(|letter| with(word, *letter)).collect();
        let longer: Vec<Vec<Code>> = words.iter().map(longer).collect();
        words = longer.concat();
    }
    chance.shuffle(&mut words);
    words.truncate(chance.between(1, 24));
    words
}

/// Like ABB, BBC, BBB, for which a shorter ribbon than ours exists.
pub fn at_the_bound(chance: &mut Chance) -> Vec<Code> {
    let mut letters = *b"ABCDEYZ";
    chance.shuffle(&mut letters);
    let [a, b, c, ..] = letters;
    let middle = vec![b; chance.between(1, 20)];
    let mut codes = vec![
        [&[a], &middle[..]].concat(),
        with(&middle, c),
        with(&middle, b),
    ];
    // In this order a shorter one exists.
    if chance.one_in(2) {
        chance.shuffle(&mut codes);
    }
    if chance.one_in(3) {
        codes[0].reverse();
    }
    codes
}

/// Long codes that repeat a short word and share little, and short parts of
/// them: these stand at many starts, some either way.
pub fn at_many_starts(chance: &mut Chance) -> Vec<Code> {
    let mut letters: Vec<u8> = (b'A'..=b'Z').collect();
    chance.shuffle(&mut letters);
    let (inside, ends) = letters.split_at(2);
    let period = chance.one_of(&[1, 1, 2, 3]);
    let run = chance.some_of(inside, period).repeat(MOST_BANDS);
    let long = |chance: &mut Chance| {
        let length = chance.between(30, MOST_BANDS - 2);
        let [first, last] = [(); 2].map(|_| chance.one_of(ends));
        [&[first], &run[..length], &[last]].concat()
    };
    let mut codes: Vec<Code> = (0..chance.between(1, 24)).map(|_| long(chance)).collect();
    for _ in 0..chance.between(1, 6) {
        let length = chance.between(1, 6);
        codes.push(window(chance, &run, length));
    }
    chance.shuffle(&mut codes);
    codes
}

/// Codes that look alike from both ends and such as nearly do, short and as
/// long as codes may be, some of them inside others.
pub fn looking_alike(chance: &mut Chance) -> Vec<Code> {
    let letters = letters(chance);
    let longest = chance.one_of(&[2, 4, 8, 16, MOST_BANDS / 2]);
    let mut codes: Vec<Code> = Vec::new();
    for _ in 0..chance.between(1, 10) {
        let half = match codes.is_empty() || chance.one_in(2) {
            true => fresh(chance, &letters, longest),
            false => some_part(chance, &codes, longest),
        };
        codes.push(alike_or_nearly(chance, &letters, &half));
    }
    chance.shuffle(&mut codes);
    codes
}

/// So many bands at most of some code.
fn some_part(chance: &mut Chance, codes: &[Code], longest: usize) -> Code {
    let code = &codes[chance.below(codes.len())];
    let (start, end) = chance.part(code.len());
    code[start..end.min(start + longest)].to_vec()
}

/// A half and the same turned, with the middle band twice or once; in some of
/// them a band is changed, or one at an end left out.
fn alike_or_nearly(chance: &mut Chance, letters: &[u8], half: &[u8]) -> Code {
    let alike = [half, &turned(half)[chance.below(2)..]].concat();
    match chance.below(6) {
        0 | 1 => one_band_changed(chance, letters, &alike),
        2 if alike.len() > 1 => alike[1..].to_vec(),
        _ => alike,
    }
}

/// Codes of which most are made from earlier ones.
fn family(chance: &mut Chance, count: usize, longest: usize) -> Vec<Code> {
    let letters = letters(chance);
    let mut codes = vec![fresh(chance, &letters, longest)];
    while codes.len() < count {
        let mut code = relative(chance, &letters, &codes);
        code.truncate(longest);
        codes.push(code);
    }
    // A code may come before or after the one that it was made from.
    if chance.one_in(2) {
        chance.shuffle(&mut codes);
    }
    codes
}

fn relative(chance: &mut Chance, letters: &[u8], codes: &[Code]) -> Code {
    let old = &codes[chance.below(codes.len())];
    let other = &codes[chance.below(codes.len())];
    let more = fresh(chance, letters, 3);
    let (start, end) = chance.part(old.len());
    let (part, beginning, ending) = (&old[start..end], &old[..end], &old[start..]);
    match chance.below(14) {
        0 => fresh(chance, letters, old.len() + 2),
        1 => [&more[..], old, &more].concat(),
        2 => old.clone(),
        3 => turned(old),
        4 => part.to_vec(),
        5 => turned(part),
        6 => [part, &turned(part)].concat(),
        7 => [part, &turned(part)[1..]].concat(),
        8 => [ending, &more].concat(),
        9 => [&more, beginning].concat(),
        10 => [&turned(beginning), &more[..]].concat(),
        11 => [ending, other].concat(),
        12 => old.repeat(2),
        _ => one_band_changed(chance, letters, old),
    }
}

/// Parts of one text, some of them turned: most overlap.
fn parts_of_a_text(chance: &mut Chance, count: usize, longest: usize) -> Vec<Code> {
    let letters = letters(chance);
    let length = longest + count * longest / 3;
    let text = chance.some_of(&letters, length);
    let part = |chance: &mut Chance| {
        let length = chance.between(longest.div_ceil(2), longest);
        window(chance, &text, length)
    };
    (0..count).map(|_| part(chance)).collect()
}

fn window(chance: &mut Chance, text: &[u8], length: usize) -> Code {
    let start = chance.between(0, text.len() - length);
    let part = &text[start..start + length];
    match chance.below(2) {
        0 => part.to_vec(),
        _ => turned(part),
    }
}

pub fn one_band_changed(chance: &mut Chance, letters: &[u8], code: &[u8]) -> Code {
    let mut changed = code.to_vec();
    changed[chance.below(code.len())] = chance.one_of(letters);
    changed
}

fn fresh(chance: &mut Chance, letters: &[u8], longest: usize) -> Code {
    let length = chance.between(1, longest);
    chance.some_of(letters, length)
}

/// Mostly few letters, so that codes share bands; A and Z are among them.
fn letters(chance: &mut Chance) -> Vec<u8> {
    let mut letters = b"ABCDYZ".to_vec();
    chance.shuffle(&mut letters);
    letters.truncate(chance.one_of(&[1, 2, 2, 2, 2, 3, 3, 3, 4, 4, 6]));
    match chance.below(20) {
        0 => (b'A'..=b'Z').collect(),
        _ => letters,
    }
}

pub fn turned(code: &[u8]) -> Code {
    code.iter().rev().copied().collect()
}

fn with(code: &[u8], letter: u8) -> Code {
    [code, &[letter]].concat()
}

//! The lists: 128 codes of up to 64 bands, the same in every run.

use crate::work::Case;
use std::collections::HashSet;
use std::iter::{once, repeat_n, repeat_with};

const CODES: usize = 128;
const BANDS: usize = 64;
/// The longest supplied ribbon.
const SUPPLIED: usize = 16_384;

impl Case {
    fn new(name: &'static str, codes: Vec<Vec<u8>>, ribbon: Vec<u8>) -> Case {
        assert_eq!(codes.len(), CODES);
        // As long as a name may be, and mostly quotes, which are written twice.
        let names = (0..CODES).map(|number| format!("{number:\">24}"));
        Case {
            name,
            lengths: codes.iter().map(|code| code.len() as u16).collect(),
            bands: codes.concat(),
            names: names.collect::<String>().into_bytes(),
            sizes: vec![24; CODES],
            ribbon,
        }
    }
}

/// For laying out and for the sheet.
pub fn largest() -> Vec<Case> {
    vec![
        Case::new("random, 26 letters", random(26), Vec::new()),
        Case::new("random, 2 letters", random(2), Vec::new()),
        Case::new("nearly all equal", nearly_equal(), Vec::new()),
        Case::new("already chained", chained(), Vec::new()),
        Case::new("127 contained in one", contained(), Vec::new()),
        Case::new("look alike from both ends", looking_alike(), Vec::new()),
    ]
}

/// For the overlaps alone. The last ones are longer than any code.
pub fn overlapped() -> Vec<Case> {
    vec![
        Case::new("random, 26 letters", random(26), Vec::new()),
        Case::new("26 letters, 1 to 64 bands", random_lengths(26), Vec::new()),
        Case::new("random, 2 letters", random(2), Vec::new()),
        Case::new("2 letters, 1 to 64 bands", random_lengths(2), Vec::new()),
        Case::new("nearly all equal", nearly_equal(), Vec::new()),
        Case::new("Fibonacci words", fibonacci(), Vec::new()),
        Case::new("longer than a code", longer(), Vec::new()),
    ]
}

/// For the check, each with a ribbon of 16,384 bands: every code stands only near its end, or the
/// last one nowhere.
pub fn checked() -> Vec<Case> {
    let end = one_odd_band_each();
    let mut missed = one_odd_band();
    missed[CODES - 1][BANDS / 2] = b'D';
    vec![
        Case::new("nearly all equal, held", one_odd_band(), ended(b'A', &end)),
        Case::new("nearly all equal, missed", missed, ended(b'A', &end)),
        behind("random, 2 letters, held", random(2), 2),
        behind("random, 26 letters, held", random(26), 26),
        Case::new("windows alike, held", ten_apart(), alike()),
        behind("look alike, held", looking_alike(), 26),
    ]
}

/// All A but B and C, ten bands apart.
fn ten_apart() -> Vec<Vec<u8>> {
    let row = ten_apart_each();
    let code = |number: usize| row[number % (row.len() - BANDS)..][..BANDS].to_vec();
    (0..CODES).map(code).collect()
}

/// A row on which all these codes stand.
fn ten_apart_each() -> Vec<u8> {
    let run = vec![b'A'; BANDS - 10];
    [&run[..], b"B", &run[..9], b"C", &run].concat()
}

/// B and C half a code apart, so that each window of 64 bands has what these codes have, and then
/// the row on which they stand.
fn alike() -> Vec<u8> {
    let end = ten_apart_each();
    let run = vec![b'A'; BANDS / 2 - 1];
    let both = [b"B", &run[..], b"C", &run].concat();
    let before = both.into_iter().cycle().take(SUPPLIED - end.len());
    before.chain(end).collect()
}

/// All A but one band, B or C, at each place.
fn one_odd_band() -> Vec<Vec<u8>> {
    let code = |number: usize| {
        let mut code = vec![b'A'; BANDS];
        code[number / 2] = b"BC"[number % 2];
        code
    };
    (0..CODES).map(code).collect()
}

/// A row on which all these codes stand: B and C with 63 times A before, between and behind them.
fn one_odd_band_each() -> Vec<u8> {
    let run = vec![b'A'; BANDS - 1];
    [&run[..], b"B", &run, b"C", &run].concat()
}

/// A longest ribbon of one band and then this end.
fn ended(band: u8, end: &[u8]) -> Vec<u8> {
    repeat_n(band, SUPPLIED - end.len())
        .chain(end.iter().copied())
        .collect()
}

/// Codes that stand end to end behind as many other bands.
fn behind(name: &'static str, codes: Vec<Vec<u8>>, letters: usize) -> Case {
    let end = codes.concat();
    let other = Random(5).bands(SUPPLIED - end.len(), letters);
    Case::new(name, codes, [other, end].concat())
}

/// A linear congruential generator (Knuth's MMIX); its upper bits are used.
struct Random(u64);

impl Random {
    fn below(&mut self, bound: usize) -> usize {
        self.0 = self
            .0
            .wrapping_mul(6364136223846793005)
            .wrapping_add(1442695040888963407);
        (self.0 >> 33) as usize % bound
    }

    fn bands(&mut self, count: usize, letters: usize) -> Vec<u8> {
        (0..count)
            .map(|_| b'A' + self.below(letters) as u8)
            .collect()
    }
}

fn random(letters: usize) -> Vec<Vec<u8>> {
    let mut random = Random(1);
    (0..CODES).map(|_| random.bands(BANDS, letters)).collect()
}

/// Each is half a code and then its turned form.
fn looking_alike() -> Vec<Vec<u8>> {
    let mut random = Random(8);
    let code = |_| {
        let half = random.bands(BANDS / 2, 26);
        half.iter().chain(half.iter().rev()).copied().collect()
    };
    (0..CODES).map(code).collect()
}

fn random_lengths(letters: usize) -> Vec<Vec<u8>> {
    let mut random = Random(6);
    let code = |_| {
        let size = 1 + random.below(BANDS);
        random.bands(size, letters)
    };
    (0..CODES).map(code).collect()
}

/// Parts of the Fibonacci word, ABAABABA and so on, in which each beginning is followed by the one
/// before it: the most that falling back can take.
fn fibonacci() -> Vec<Vec<u8>> {
    let (mut before, mut word) = (b"A".to_vec(), b"AB".to_vec());
    while word.len() < CODES + BANDS {
        let next = [&word[..], &before].concat();
        before = std::mem::replace(&mut word, next);
    }
    (0..CODES).map(|i| word[i..i + BANDS].to_vec()).collect()
}

/// Each begins with a good half of the one before it, and has more bands than a code may have.
fn longer() -> Vec<Vec<u8>> {
    let (size, step) = (BANDS * 2, BANDS * 3 / 4);
    let bands = Random(7).bands(size + CODES * step, 2);
    let word = |i: usize| bands[i * step..i * step + size].to_vec();
    (0..CODES).map(word).collect()
}

/// All A but one or two bands. No code is another one or another one turned, so none is dropped.
fn nearly_equal() -> Vec<Vec<u8>> {
    let mut random = Random(2);
    distinct(repeat_with(|| {
        let mut code = vec![b'A'; BANDS];
        code[random.below(BANDS)] = b'B';
        code[random.below(BANDS)] = b'B';
        code
    }))
}

/// Each code begins with the last half of the one before it.
fn chained() -> Vec<Vec<u8>> {
    let half = BANDS / 2;
    let bands = Random(3).bands((CODES + 1) * half, 26);
    (0..CODES)
        .map(|i| bands[i * half..(i + 2) * half].to_vec())
        .collect()
}

/// One code, then shorter parts of it.
fn contained() -> Vec<Vec<u8>> {
    let mut random = Random(4);
    let whole = random.bands(BANDS, 26);
    let parts = repeat_with(|| {
        let size = 1 + random.below(BANDS - 1);
        let start = random.below(BANDS - size + 1);
        whole[start..start + size].to_vec()
    });
    distinct(once(whole.clone()).chain(parts))
}

/// The first codes of which none is an earlier one, given or turned.
fn distinct(codes: impl Iterator<Item = Vec<u8>>) -> Vec<Vec<u8>> {
    let mut seen = HashSet::new();
    let first_seen = |code: &Vec<u8>| {
        let turned: Vec<u8> = code.iter().rev().copied().collect();
        seen.insert(turned.min(code.clone()))
    };
    codes.filter(first_seen).take(CODES).collect()
}

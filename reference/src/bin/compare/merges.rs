//! Rows on which codes stand, made by merging them in any order.

use crate::codes::{turned, Code};
use reference::drive::chance::Chance;

/// In some order, each some way round.
pub fn arranged(chance: &mut Chance, codes: &[Code]) -> Vec<Code> {
    let mut arranged = codes.to_vec();
    chance.shuffle(&mut arranged);
    for code in &mut arranged {
        if chance.one_in(2) {
            code.reverse();
        }
    }
    arranged
}

pub fn merged(codes: &[Code]) -> Vec<u8> {
    codes.iter().fold(Vec::new(), |row, code| with(&row, code))
}

/// The row and what the code has past their overlap; as it is if the code
/// stands on it already.
pub fn with(row: &[u8], code: &[u8]) -> Vec<u8> {
    if stands(row, code) {
        return row.to_vec();
    }
    let most = row.len().min(code.len());
    let mut shared = (0..=most).rev().filter(|n| row.ends_with(&code[..*n]));
    let shared = shared.next().unwrap_or(0);
    [row, &code[shared..]].concat()
}

/// The shortest of some rows that are made of the codes in any order, each
/// some way round: now and then shorter than our ribbon.
pub fn shortest(chance: &mut Chance, codes: &[Code], row: fn(&[Code]) -> Vec<u8>) -> Vec<u8> {
    let bands: usize = codes.iter().map(Vec::len).sum();
    let tries = 1 + 2_000 / bands;
    let rows = (0..tries).map(|_| row(&arranged(chance, codes)));
    rows.min_by_key(Vec::len).expect("there is a try")
}

/// A row of all codes but one, and the one. It does not stand there, unless
/// some tries came upon codes alone that stand on the others' rows.
pub fn all_but_one(chance: &mut Chance, codes: &[Code]) -> (Vec<u8>, Code) {
    let mut tried = one_left_out(chance, codes);
    for _ in 0..8 {
        if !stands(&tried.0, &tried.1) {
            break;
        }
        tried = one_left_out(chance, codes);
    }
    tried
}

fn one_left_out(chance: &mut Chance, codes: &[Code]) -> (Vec<u8>, Code) {
    let mut others = codes.to_vec();
    let one = others.remove(chance.below(codes.len()));
    (merged(&arranged(chance, &others)), one)
}

pub fn stands(row: &[u8], code: &[u8]) -> bool {
    stands_given(row, code) || stands_given(row, &turned(code))
}

pub fn stands_given(row: &[u8], code: &[u8]) -> bool {
    // Windows have at least one byte.
    code.is_empty() || row.windows(code.len()).any(|part| part == code)
}

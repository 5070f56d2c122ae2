//! M-105: overlaps found in one pass along the first code, falling back
//! through shorter beginnings of the second.
//!
//! What is held and what is fallen back to are looked up here by trying every
//! beginning, so that the pass is held against the request's own sentences.

use crate::chance::Chance;
use crate::common::*;
use reference::overlap;

/// The longest beginning of b that ends the text.
fn longest_that_ends(text: &[u8], b: &[u8]) -> usize {
    let ends = |n: &usize| text.ends_with(&b[..*n]);
    (0..=b.len()).rev().find(ends).unwrap()
}

/// The longest shorter beginning of b with which its first k bands end.
fn fall_back(b: &[u8], k: usize) -> usize {
    let ends = |n: &usize| b[..k].ends_with(&b[..*n]);
    (0..k).rev().find(ends).unwrap()
}

/// A pass: how many bands of b are held after each band passed, and how often
/// a band was compared.
#[derive(Default)]
struct Pass {
    held: Vec<usize>,
    compared: usize,
}

impl Pass {
    fn along(a: &[u8], b: &[u8], falls: &[usize]) -> Pass {
        let mut pass = Pass::default();
        let mut held = 0;
        for band in a {
            held = pass.one_further(b, falls, held, *band);
            pass.held.push(held);
        }
        pass
    }

    fn one_further(&mut self, b: &[u8], falls: &[usize], held: usize, band: u8) -> usize {
        let mut held = held;
        loop {
            self.compared += 1;
            if b.get(held) == Some(&band) {
                return held + 1;
            }
            if held == 0 {
                return 0;
            }
            held = falls[held - 1];
        }
    }
}

/// The fall-backs from each beginning of b, found by a pass along b itself
/// past its first band.
fn fall_backs(b: &[u8]) -> Pass {
    let mut pass = Pass::default();
    pass.held.push(0);
    for k in 1..b.len() {
        let falls = pass.held.clone();
        let held = pass.one_further(b, &falls, falls[k - 1], b[k]);
        pass.held.push(held);
    }
    pass
}

/// The overlap as the request has it found, and how often a band was compared.
fn by_one_pass(a: &[u8], b: &[u8]) -> (usize, usize) {
    let falls = fall_backs(b);
    let pass = Pass::along(a, b, &falls.held);
    let at_the_end = *pass.held.last().unwrap();
    (at_the_end, falls.compared + pass.compared)
}

/// Every word of 1 to so many bands, A or B.
fn words(longest: usize) -> Vec<Vec<u8>> {
    let word = |long: usize| (0..1 << long).map(move |n: usize| spelt(n, long));
    (1..=longest).flat_map(word).collect()
}

fn spelt(number: usize, long: usize) -> Vec<u8> {
    (0..long).map(|i| b"AB"[number >> i & 1]).collect()
}

/// The Fibonacci word, ABAABABA and so on: each beginning is the last two, one
/// behind the other. The most fall-backs are taken on it.
fn fibonacci(long: usize) -> Vec<u8> {
    let (mut before, mut word) = (b"A".to_vec(), b"AB".to_vec());
    while word.len() < long {
        let next = [&word[..], &before].concat();
        before = std::mem::replace(&mut word, next);
    }
    word.truncate(long);
    word
}

/// Pairs of codes: by chance, of few bands, nearly equal, cut out of the
/// Fibonacci word.
fn pairs(chance: &mut Chance) -> Vec<[Vec<u8>; 2]> {
    let source = fibonacci(200);
    let mut code = |kind: usize| {
        let long = 1 + chance.below(64);
        match kind {
            0 => chance.some_of(b"ABCDEFGHIJKLMNOPQRSTUVWXYZ", long),
            1 => chance.some_of(b"AB", long),
            2 => {
                let mut code = vec![b'A'; long];
                code[chance.below(long)] = b'B';
                code
            }
            _ => {
                let start = chance.below(100);
                source[start..start + long].to_vec()
            }
        }
    };
    (0..4_000).map(|n| [code(n % 4), code(n % 4)]).collect()
}

#[test]
fn fall_backs_by_hand() {
    assert_eq!(fall_backs(b"AABAAC").held, [0, 1, 0, 1, 2, 0]);
    assert_eq!(fall_backs(b"ABABAB").held, [0, 0, 1, 2, 3, 4]);
    assert_eq!(fall_backs(b"AAAA").held, [0, 1, 2, 3]);
    assert_eq!(fall_backs(b"ABACABAD").held, [0, 0, 1, 0, 1, 2, 3, 0]);
}

#[test]
fn each_fall_back_is_the_longest_shorter_beginning_with_which_the_present_one_ends() {
    let mut chance = Chance(0x5EED_0105);
    let codes = pairs(&mut chance).into_iter().flatten();
    for b in words(9).into_iter().chain(codes) {
        let expected: Vec<usize> = (1..=b.len()).map(|k| fall_back(&b, k)).collect();
        assert_eq!(fall_backs(&b).held, expected);
    }
}

#[test]
fn after_each_band_the_match_held_is_the_longest_that_ends_there() {
    let all = words(6);
    for [a, b] in all.iter().flat_map(|a| all.iter().map(move |b| [a, b])) {
        let held = Pass::along(a, b, &fall_backs(b).held).held;
        for (passed, held) in (1..).zip(held) {
            assert_eq!(held, longest_that_ends(&a[..passed], b));
        }
    }
}

#[test]
fn the_number_stays_document_01s_for_every_two_codes() {
    let all = words(6);
    for [a, b] in all.iter().flat_map(|a| all.iter().map(move |b| [a, b])) {
        assert_eq!(by_one_pass(a, b).0, overlap(a, b));
    }
    for [a, b] in pairs(&mut Chance(0x5EED_0106)) {
        assert_eq!(by_one_pass(&a, &b).0, overlap(&a, &b));
    }
}

#[test]
fn also_where_the_first_holds_the_second() {
    // In the middle: the match falls back and goes on. Document 000 would
    // give all of the second there, document 01 asks for an ending.
    for (a, b, shared) in [
        ("CABC", "AB", 0),
        ("ABAAC", "ABA", 0),
        ("AABAB", "ABA", 2),
        ("AAAB", "AA", 0),
        // At the end it is the answer, also where it stood before.
        ("CAB", "AB", 2),
        ("ABAB", "AB", 2),
        ("AAA", "AA", 2),
        ("AB", "AB", 2),
    ] {
        assert_eq!(by_one_pass(a.as_bytes(), b.as_bytes()).0, shared);
        assert_eq!(overlap(a.as_bytes(), b.as_bytes()), shared);
    }
}

#[test]
fn bands_are_compared_at_most_twice_as_often_as_there_are_bands() {
    let short = words(8);
    let short = short.iter().map(|b| [fibonacci(64), b.clone()]);
    let pairs = pairs(&mut Chance(0x5EED_0107));
    for [a, b] in pairs.into_iter().chain(short) {
        assert!(by_one_pass(&a, &b).1 <= 2 * (a.len() + b.len()));
    }
    // Ending by ending it is a square: nearly equal codes.
    let (a, b) = (vec![b'A'; 64], [&[b'A'; 63][..], b"B"].concat());
    assert_eq!(by_one_pass(&a, &b).0, 63);
    assert!(by_one_pass(&a, &b).1 <= 256);
}

#[test]
fn lists_laid_out_by_overlaps_that_are_fallen_back_to() {
    // After DAABAA five bands of AABAAC are held. B is not C: back to AA, and
    // B follows it.
    let laid_out = |ribbon: &str, saved: usize| (ribbon.to_string(), saved);
    let codes = ["DAABAAB", "AABAAC"];
    assert_eq!(laid(&codes), laid_out("DAABAABAAC", 3));
    // Back from ABACABA to ABA, then to A, which B follows.
    let codes = ["EABACABAB", "ABACABAD"];
    assert_eq!(laid(&codes), laid_out("EABACABABACABAD", 2));
    let codes = ["BAAAAA", "AAAC"];
    assert_eq!(laid(&codes), laid_out("BAAAAAC", 3));
}

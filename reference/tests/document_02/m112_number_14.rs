//! M-112: while more than one mirrored pair of pieces is left there is always
//! an allowed join. So number 14 is retired, and stays unused.

use crate::chance::Chance;
use crate::common::*;
use reference::{check_output, ribbon_output, sheet_output, Checked, Refusal};
use std::collections::BTreeSet;

/// Faces in a row; a piece and its mirror stand apart.
type Piece = Vec<usize>;

/// From a, which ends a piece, to b, which begins a different one and is not
/// the mirror of a.
fn allowed(pieces: &[Piece]) -> Vec<(usize, usize)> {
    let mut joins = Vec::new();
    for left in pieces {
        for right in pieces.iter().filter(|right| *right != left) {
            let (a, b) = (left[left.len() - 1], right[0]);
            if b != a ^ 1 {
                joins.push((a, b));
            }
        }
    }
    joins
}

/// The pieces after the join and its mirror.
fn after(pieces: &[Piece], (a, b): (usize, usize)) -> Vec<Piece> {
    let mut pieces = pieces.to_vec();
    for (a, b) in [(a, b), (b ^ 1, a ^ 1)] {
        let right = pieces.iter().position(|piece| piece[0] == b).unwrap();
        let right = pieces.remove(right);
        let left = pieces.iter_mut().find(|piece| piece.last() == Some(&a));
        left.unwrap().extend(right);
    }
    pieces
}

fn faces(codes: usize) -> Vec<Piece> {
    (0..2 * codes).map(|face| vec![face]).collect()
}

fn mirrored(piece: &Piece) -> Piece {
    piece.iter().rev().map(|face| face ^ 1).collect()
}

/// Looks at every run of allowed joins from here on, and counts them.
fn runs(pieces: &[Piece]) -> usize {
    let joins = allowed(pieces);
    if pieces.len() == 2 {
        assert_eq!(mirrored(&pieces[0]), pieces[1]);
        assert_eq!(joins, []);
        return 1;
    }
    assert_ne!(joins, [], "{pieces:?}");
    joins.iter().map(|join| runs(&after(pieces, *join))).sum()
}

#[test]
fn every_run_of_allowed_joins_ends_with_one_mirrored_pair() {
    // Of k mirrored pairs each of the 2k ends goes to all beginnings but its
    // own piece's and its mirror's: 2k (2k - 2) joins, for k from the number
    // of codes down to 2.
    assert_eq!(runs(&faces(1)), 1);
    assert_eq!(runs(&faces(2)), 8);
    assert_eq!(runs(&faces(3)), 24 * 8);
    assert_eq!(runs(&faces(4)), 48 * 24 * 8);
}

#[test]
fn so_do_long_runs_by_chance() {
    let mut chance = Chance(0x5EED_0112);
    for codes in 5..=128 {
        let mut pieces = faces(codes);
        for _ in 1..codes {
            let joins = allowed(&pieces);
            pieces = after(&pieces, chance.one_of(&joins));
        }
        assert_eq!(runs(&pieces), 1);
    }
}

#[test]
fn codes_that_share_nothing_are_joined() {
    assert_eq!(laid(&["AB", "CD"]), ("ABCD".to_string(), 0));
    // Faces A 0 and 1, B 2 and 3, C 4 and 5: 0 goes to 2, and 3 to 1. The
    // lowest end is 1 then; 0 is its mirror, so it goes to 4, and 5 to 0.
    assert_eq!(laid(&["A", "B", "C"]), ("CAB".to_string(), 0));
    let letters: Vec<String> = ('A'..='Z').map(String::from).collect();
    let letters: Vec<&str> = letters.iter().map(String::as_str).collect();
    let list = List::of(&letters);
    let (ribbon, saved) = list.laid();
    assert_eq!((ribbon.len(), saved), (26, 0));
    let checked = list.check(ribbon.as_bytes(), &mut marked_places(26));
    assert_eq!(checked, Ok(Checked::Held(0)));
    assert_eq!(list.sheet_bytes().split(|byte| *byte == b'\n').count(), 28);
}

/// The numbers by which a call refused.
#[derive(Default)]
struct Numbers(BTreeSet<u8>);

impl Numbers {
    fn note<T>(&mut self, answer: Result<T, Refusal>) {
        self.0.extend(answer.err().map(|refusal| refusal.number));
    }

    fn note_line(&mut self, output: &[u8]) {
        let text = String::from_utf8_lossy(output);
        let line = text.strip_prefix("refused,");
        let number = line.and_then(|line| line.split(',').next());
        self.0
            .extend(number.map(|number| number.parse::<u8>().unwrap()));
    }

    fn are(&self, expected: &[u8]) {
        assert_eq!(Vec::from_iter(self.0.iter().copied()), expected);
    }
}

/// A list with a byte or a length changed now and then.
fn any_list(chance: &mut Chance) -> List {
    let codes = chance.codes(5);
    let codes: Vec<&str> = codes.iter().map(String::as_str).collect();
    let mut list = List::of(&codes);
    match chance.below(6) {
        0 => list.bands[0] = chance.one_of(b"@[a 1"),
        1 => list.lengths[0] = chance.one_of(&[0, 65, 8_192]),
        2 => list.names[0] = chance.one_of(b"\t\x7F"),
        _ => {}
    }
    list
}

#[test]
fn calls_on_lists_refuse_by_their_own_numbers_alone() {
    let mut chance = Chance(0x5EED_0113);
    let [mut lay, mut check, mut sheet] = [(); 3].map(|_| Numbers::default());
    for _ in 0..5_000 {
        let list = any_list(&mut chance);
        let ribbon = match chance.below(4) {
            0 => vec![b'A'; chance.one_of(&[16_384, 16_385])],
            1 => chance.some_of(b"AB.", 3),
            _ => list.bands.clone(),
        };
        lay.note(list.lay(&mut marked_bytes(chance.below(30))));
        sheet.note(list.sheet(&mut marked_bytes(chance.below(200))));
        check.note(list.check(&ribbon, &mut marked_places(chance.below(6))));
    }
    lay.are(&[12, 13]);
    sheet.are(&[12, 13]);
    check.are(&[8, 12, 13, 15]);
}

#[test]
fn reading_and_the_programs_refuse_by_their_own_numbers_alone() {
    let [mut read, mut ribbon, mut sheet, mut check] = [(); 4].map(|_| Numbers::default());
    let long = "A".repeat(65);
    let files = [
        vec![b'a'; 16_385],
        b"name,code\r\n\"".to_vec(),
        file(&["x"]),
        b"code,name\r\n".to_vec(),
        file(&[",AB"]),
        file(&["x,"]),
        file(&[&format!("x,{long}")]),
        file(&["x,ab"]),
        file(&["x,AB", "x,AB"]),
        long_file(129, &[]),
        file(&[]),
        file(&["x,AB", "y,CD"]),
    ];
    for list in &files {
        read.note(Lent::of(3, 2, 2, 2).read(list));
        ribbon.note_line(&ribbon_output(list));
        sheet.note_line(&sheet_output(list));
        for supplied in [&b"ABCD"[..], b"AB.", &[b'A'; 16_385]] {
            check.note_line(&check_output(list, supplied));
        }
    }
    read.are(&[1, 2, 3, 4, 5, 6, 7, 8, 9, 10, 11, 13]);
    ribbon.are(&[1, 2, 3, 4, 5, 6, 7, 8, 9, 10, 11]);
    sheet.are(&[1, 2, 3, 4, 5, 6, 7, 8, 9, 10, 11]);
    check.are(&[1, 2, 3, 4, 5, 6, 7, 8, 9, 10, 11, 15]);
}

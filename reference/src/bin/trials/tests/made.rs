//! Cases that are made: the draws by hand, and that each family is what it
//! says.

use crate::cases::{List, Make};
use crate::draws::Draws;
use crate::families::Family::{self, *};
use crate::making::{made, name};
use reference::{lay_ribbon, write_sheet};
use std::collections::BTreeSet;

fn lists(family: Family, count: u32, seed: u32) -> Vec<List> {
    let make = Make {
        family,
        count,
        seed,
    };
    made(&make).collect()
}

fn codes(list: &List) -> Vec<&[u8]> {
    let mut rest = &list.bands[..];
    let mut next = |length: &u16| {
        let (code, after) = rest.split_at(usize::from(*length));
        rest = after;
        code
    };
    list.lengths.iter().map(&mut next).collect()
}

fn turned(code: &[u8]) -> Vec<u8> {
    code.iter().rev().copied().collect()
}

fn is_part(code: &[u8], other: &[u8]) -> bool {
    let ways = [code.to_vec(), turned(code)];
    let mut windows = other.windows(code.len());
    windows.any(|part| ways.iter().any(|way| way == part))
}

#[test]
fn draws_of_the_seed_1() {
    let mut draws = Draws::of(1);
    // 48271 * 48271 is 2330089441, which is 182605794 past the modulus.
    let first = [48_271, 182_605_794, 1_291_394_886];
    assert_eq!([(); 3].map(|_| draws.next()), first);
    // 48271 is 11 * 4388 + 3, and 182605794 is 6 * 30434299.
    let mut draws = Draws::of(1);
    assert_eq!([draws.draw(11), draws.draw(6), draws.draw(2)], [3, 0, 0]);
    // A seed is taken modulo 2147483647.
    let mut past = Draws::of(2_147_483_648);
    assert_eq!([(); 3].map(|_| past.next()), first);
}

#[test]
fn the_first_codes_of_the_seed_1() {
    // By these draws 2 + 3 codes, of which the first has 1 + 0 bands, an A.
    let list = &lists(Ties, 1, 1)[0];
    assert_eq!(list.lengths.len(), 5);
    assert_eq!(codes(list)[0], b"A");
    // Palindromes: 48271 is 9 * 5363 + 4, and 182605794 is even: 6 codes, of
    // 2 letters; 1291394886 is 9 * 143488320 + 6: the first has 7 bands.
    let list = &lists(Palindromes, 1, 1)[0];
    assert_eq!((list.lengths.len(), list.lengths[0]), (6, 7));
    // Nested: 48271 is 15 * 3218 + 1, and 182605794 is 57 * 3203610 + 24.
    let list = &lists(Nested, 1, 1)[0];
    assert_eq!((list.lengths.len(), list.lengths[0]), (3, 32));
    // Full: 48271 is 8 * 6033 + 7, so the first code has 64 - 7 bands, and as
    // the next two draws are even, it begins with AA.
    let codes = Full.codes(0, &mut Draws::of(1));
    assert_eq!((codes.len(), codes[0].len()), (128, 57));
    assert!(codes[0].starts_with(b"AA"));
}

#[test]
fn draws_go_on_from_case_to_case() {
    let bands = |seed| {
        let lists = lists(Chains, 2, seed);
        lists.into_iter().map(|list| list.bands).collect::<Vec<_>>()
    };
    assert_eq!(bands(1), bands(1));
    assert_ne!(bands(1)[0], bands(1)[1]);
    assert_ne!(bands(1)[0], bands(2)[0]);
}

#[test]
fn ties_are_short_and_of_two_letters() {
    for list in lists(Ties, 200, 1) {
        assert!((2..=12).contains(&list.lengths.len()));
        assert!(list.lengths.iter().all(|length| (1..=6).contains(length)));
        assert!(list.bands.iter().all(|band| b"AB".contains(band)));
    }
}

#[test]
fn palindromes_mostly_read_alike_both_ways() {
    let (mut alike, mut all) = (0, 0);
    for list in lists(Palindromes, 200, 1) {
        assert!((2..=10).contains(&list.lengths.len()));
        assert!(list.lengths.iter().all(|length| (1..=9).contains(length)));
        assert!(list.bands.iter().all(|band| b"ABC".contains(band)));
        alike += codes(&list)
            .iter()
            .filter(|code| turned(code) == **code)
            .count();
        all += list.lengths.len();
    }
    assert!(alike * 4 > all * 3 && alike < all, "{alike} of {all}");
}

#[test]
fn nested_codes_are_parts_of_earlier_ones_or_short() {
    for list in lists(Nested, 200, 1) {
        let codes = codes(&list);
        assert!((2..=16).contains(&codes.len()));
        assert!((8..=64).contains(&codes[0].len()));
        for (i, code) in codes.iter().enumerate().skip(1) {
            let inside = codes[..i].iter().any(|other| is_part(code, other));
            assert!(inside || (1..=10).contains(&code.len()));
        }
    }
}

#[test]
fn chains_are_of_four_letters() {
    for list in lists(Chains, 200, 1) {
        assert!((3..=20).contains(&list.lengths.len()));
        assert!(list.lengths.iter().all(|length| (4..=15).contains(length)));
        assert!(list.bands.iter().all(|band| b"ABCD".contains(band)));
    }
}

#[test]
fn full_lists_are_of_2_of_26_or_mostly_of_one_letter() {
    let mut draws = Draws::of(1);
    let lists = [0, 1, 2, 3].map(|number| Full.codes(number, &mut draws));
    for codes in &lists {
        assert_eq!(codes.len(), 128);
        assert!(codes.iter().all(|code| (57..=64).contains(&code.len())));
    }
    let runs = lists.map(|codes| codes.concat());
    let letters = |run: &Vec<u8>| run.iter().collect::<BTreeSet<_>>().len();
    assert_eq!(runs.each_ref().map(letters), [2, 26, 2, 2]);
    // Of 32 bands so many and a fraction are A.
    let of_a = |run: &Vec<u8>| run.iter().filter(|band| **band == b'A').count();
    let share = runs.each_ref().map(|run| of_a(run) * 32 / run.len());
    assert!([15, 16].contains(&share[0]) && [15, 16].contains(&share[3]));
    assert!(share[1] == 1 && [30, 31].contains(&share[2]));
}

#[test]
fn names_are_letters_with_what_is_quoted_behind_them() {
    let mut draws = Draws::of(1);
    let mut ends = BTreeSet::new();
    for i in 0..128 {
        let name = name(i, &mut draws);
        assert!(name[0] == b'a' + (i / 26) as u8 && name[1] == b'a' + (i % 26) as u8);
        ends.insert(name[2..].to_vec());
    }
    let expected: [&[u8]; 4] = [b"", b"\"", &[b'"'; 22], b","];
    assert!(ends.into_iter().eq(expected));
}

#[test]
fn ribbons_that_are_supplied_and_rooms() {
    let (mut ribbons, mut rooms) = (BTreeSet::new(), [(); 3].map(|_| BTreeSet::new()));
    for list in lists(Ties, 300, 1) {
        let (laid, sheet) = results(&list);
        ribbons.insert(change(&laid, &list.ribbon));
        let least = [laid.len(), list.lengths.len(), sheet];
        for (i, seen) in rooms.iter_mut().enumerate() {
            seen.insert(match (i, list.rooms[i]) {
                (0, 8_192) | (1, 128) => 1_000,
                (_, room) => room as i64 - least[i] as i64,
            });
        }
    }
    let changes = [
        "as it is",
        "turned",
        "with Z",
        "with an A more",
        "without the last",
    ];
    assert!(ribbons.into_iter().eq(changes));
    let rooms = rooms.map(|seen| seen.into_iter().collect::<Vec<_>>());
    let expected: [&[i64]; 3] = [&[-1, 0, 3, 1_000], &[-1, 0, 2, 1_000], &[-1, 0, 5]];
    assert_eq!(rooms, expected);
}

/// The ribbon of a list, and the length of its sheet.
fn results(list: &List) -> (Vec<u8>, usize) {
    let mut ribbon = vec![0; 8_192];
    let laid = lay_ribbon(&list.bands, &list.lengths, &mut ribbon).unwrap();
    ribbon.truncate(laid.length);
    let (names, out) = ((&list.names, &list.sizes), &mut [0; 17_181]);
    let sheet = write_sheet(&list.bands, &list.lengths, names.0, names.1, out);
    (ribbon, sheet.unwrap().length)
}

/// What was done to a ribbon; of a palindrome nothing.
fn change(laid: &[u8], supplied: &[u8]) -> &'static str {
    let place = supplied.iter().position(|band| *band == b'Z');
    let with_z = place.is_some_and(|place| {
        let rest = [&laid[..place], &laid[place + 1..]].concat();
        rest == [&supplied[..place], &supplied[place + 1..]].concat()
    });
    if supplied == laid {
        "as it is"
    } else if with_z {
        "with Z"
    } else if supplied == turned(laid) {
        "turned"
    } else if supplied == [laid, b"A"].concat() {
        "with an A more"
    } else if supplied == &laid[..laid.len() - 1] {
        "without the last"
    } else {
        "otherwise"
    }
}

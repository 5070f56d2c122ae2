//! Document 01, "Refused orders", numbers 8, 12, 13 and 15 for lists and
//! ribbons handed over by other code.

use crate::common::*;
use reference::{Checked, Laid, Sheet};

/// A list of these bands and lengths under names that are right for it.
fn list(bands: &[u8], lengths: &[u16]) -> List {
    let names = List::of(&vec!["A"; lengths.len()]);
    List {
        bands: bands.to_vec(),
        lengths: lengths.to_vec(),
        ..names
    }
}

/// A list of two codes with these names.
fn with_names(names: &[u8], sizes: &[u16]) -> List {
    List {
        names: names.to_vec(),
        sizes: sizes.to_vec(),
        ..List::of(&["AB", "CD"])
    }
}

/// Every call gives 12 and leaves lent memory as it was.
fn false_list(what: &str, list: &List) {
    let (mut ribbon, mut places) = (marked_bytes(9_000), marked_places(200));
    assert_eq!(list.lay(&mut ribbon), Err(refusal(12, 0)), "{what}");
    assert_eq!(
        list.check(b"AB", &mut places),
        Err(refusal(12, 0)),
        "{what}"
    );
    false_names(what, list);
    assert_eq!(ribbon, marked_bytes(9_000), "{what}");
    assert_eq!(places, marked_places(200), "{what}");
}

fn false_names(what: &str, list: &List) {
    let mut out = marked_bytes(20_000);
    assert_eq!(list.sheet(&mut out), Err(refusal(12, 0)), "{what}");
    assert_eq!(out, marked_bytes(20_000), "{what}");
}

#[test]
fn number_12_how_many_codes() {
    false_list("no codes", &list(b"", &[]));
    false_list("no codes for the bands", &list(b"AB", &[]));
    false_list("129 codes", &list(&[b'A'; 129], &[1; 129]));
    false_list("70,000 codes", &list(&[b'A'; 70_000], &[1; 70_000]));
}

#[test]
fn number_12_lengths() {
    false_list("a length of 0", &list(b"AB", &[2, 0]));
    false_list("a length of 0 first", &list(b"AB", &[0, 2]));
    false_list("one length of 0", &list(b"", &[0]));
    false_list("a length of 65", &list(&[b'A'; 65], &[65]));
    false_list("a length of 65 at the end", &list(&[b'A'; 67], &[2, 65]));
    false_list("a length of 65,535", &list(&[b'A'; 65_535], &[65_535]));
    false_list("less than the run", &list(b"ABC", &[2]));
    false_list("much less than the run", &list(&[b'A'; 8_193], &[64; 128]));
    false_list("more than the run", &list(b"ABC", &[2, 2]));
    false_list("more than an empty run", &list(b"", &[1]));
}

#[test]
fn number_12_sums_past_every_bound() {
    // Counted in 32 bits, 65,538 lengths of 65,535 would add up to the run;
    // counted in 16 bits, so would 65,535, 2 and 1.
    let past_32_bits = u64::from(u16::MAX) * 65_538 - (1 << 32);
    assert_eq!(past_32_bits, 65_534);
    false_list("past 32 bits", &list(&[b'A'; 65_534], &[65_535; 65_538]));
    false_list("past 16 bits", &list(b"AB", &[65_535, 2, 1]));
    false_list("as long as can be", &list(b"AB", &[65_535; 128]));
}

#[test]
fn number_12_a_byte_outside_a_to_z() {
    for byte in no_bands() {
        false_list("the first byte", &list(&[byte, b'A', b'B'], &[2, 1]));
        false_list("a middle byte", &list(&[b'A', byte, b'B'], &[2, 1]));
        false_list("the last byte", &list(&[b'A', b'B', byte], &[2, 1]));
    }
}

#[test]
fn number_12_names_that_are_not_one_a_code() {
    false_names("none", &with_names(b"", &[]));
    false_names("fewer", &with_names(b"a", &[1]));
    false_names("more", &with_names(b"abc", &[1, 1, 1]));
    false_names("129", &with_names(&[b'a'; 129], &[1; 129]));
}

#[test]
fn number_12_name_lengths_that_do_not_add_up() {
    false_names("to less", &with_names(b"abc", &[1, 1]));
    false_names("to more", &with_names(b"abc", &[2, 2]));
    false_names("to more than an empty run", &with_names(b"", &[1, 1]));
    // 65,535 + 3 is 2 in 16 bits.
    false_names("past 16 bits", &with_names(b"ab", &[65_535, 3]));
}

#[test]
fn number_12_names_that_break_the_rule() {
    false_names("0 bytes", &with_names(b"ab", &[2, 0]));
    false_names("0 bytes first", &with_names(b"ab", &[0, 2]));
    false_names("25 bytes", &with_names(&marked_bytes(58)[32..], &[1, 25]));
    false_names("used twice", &with_names(b"abab", &[2, 2]));
    for byte in (0..=255u8).filter(|byte| !(0x20..=0x7E).contains(byte)) {
        false_names("first byte", &with_names(&[byte, b'a', b'b'], &[2, 1]));
        false_names("last byte", &with_names(&[b'a', b'b', byte], &[1, 2]));
    }
    // Three codes, so that the two alike are not neighbours.
    let apart = List::named(&[("a", "AB"), ("b", "CD"), ("a", "EF")]);
    false_names("used twice, apart", &apart);
}

#[test]
fn right_lists_are_not_refused() {
    let mut room = [0; 20_000];
    for (what, list) in [
        ("one band", list(b"A", &[1])),
        ("first and last bands", list(b"AZ", &[1, 1])),
        ("64 bands", list(&[b'A'; 64], &[64])),
        ("128 codes of 64", list(&[b'A'; 8_192], &[64; 128])),
        (
            "names of 1 and 24 bytes",
            with_names(&marked_bytes(57)[32..], &[1, 24]),
        ),
        ("first and last bytes of a name", with_names(b" ~", &[1, 1])),
        ("names that differ by case", with_names(b"aA", &[1, 1])),
        ("a name that begins another", with_names(b"aab", &[1, 2])),
    ] {
        assert!(list.lay(&mut room).is_ok(), "{what}");
        assert!(list.sheet(&mut room).is_ok(), "{what}");
        let missing = list.check(b"", &mut []);
        assert_eq!(missing, Ok(Checked::Missing(0)), "{what}");
    }
}

#[test]
fn only_the_sheet_looks_at_names() {
    let list = with_names(b"", &[]);
    assert_eq!(
        list.lay(&mut [0; 4]),
        Ok(Laid {
            length: 4,
            saved: 0
        })
    );
    let checked = list.check(b"ABCD", &mut marked_places(2));
    assert_eq!(checked, Ok(Checked::Held(0)));
}

#[test]
fn number_8_in_a_ribbon() {
    let list = List::of(&["AB"]);
    for byte in no_bands() {
        for ribbon in [[byte, b'A', b'B'], [b'A', byte, b'B'], [b'A', b'B', byte]] {
            let checked = list.check(&ribbon, &mut marked_places(1));
            assert_eq!(checked, Err(refusal(8, 0)), "{ribbon:?}");
        }
    }
}

#[test]
fn number_15_long_ribbon() {
    let list = List::of(&["A"]);
    for bands in [16_385, 16_386, 70_000] {
        let checked = list.check(&vec![b'A'; bands], &mut marked_places(1));
        assert_eq!(checked, Err(refusal(15, 0)), "{bands}");
    }
}

#[test]
fn number_13_each_lent_buffer() {
    let list = List::of(&["AB", "BC", "B"]);
    // The ribbon ABC; three records, the dropped code's too; with CR LF a
    // heading of 29 bytes, N0,given,0,AB,1 and N1,given,1,BC,1 of 17 each and
    // N2,either,1,B,1 of 17.
    assert_eq!(
        list.lay(&mut [0; 3]),
        Ok(Laid {
            length: 3,
            saved: 1
        })
    );
    assert_eq!(list.lay(&mut [0; 2]), Err(refusal(13, 0)));
    assert_eq!(list.lay(&mut []), Err(refusal(13, 0)));
    let check = |room| list.check(b"ABC", &mut marked_places(room));
    assert_eq!(check(3), Ok(Checked::Held(0)));
    assert_eq!(check(2), Err(refusal(13, 0)));
    assert_eq!(check(0), Err(refusal(13, 0)));
    let length = 29 + 17 + 17 + 17;
    assert_eq!(
        list.sheet(&mut vec![0; length]),
        Ok(Sheet { length, saved: 1 })
    );
    assert_eq!(list.sheet(&mut vec![0; length - 1]), Err(refusal(13, 0)));
    assert_eq!(list.sheet(&mut []), Err(refusal(13, 0)));
}

//! Document 01, "Ribbons by hand".

use crate::common::*;
use reference::{Checked, Laid};

const RIBBONS: &[(&[&str], &str, usize)] = &[
    (&["AB"], "AB", 0),
    (&["A", "A"], "A", 0),
    (&["AB", "BA"], "AB", 0),
    (&["ABC", "B"], "ABC", 0),
    (&["AB", "CD"], "ABCD", 0),
    (&["AB", "BC"], "ABC", 1),
    (&["AB", "CA"], "CAB", 1),
    (&["ABA", "ACA"], "ABACA", 1),
    (&["ABB", "BBB", "BBC"], "ABBBC", 4),
    (&["ABB", "BBC", "BBB"], "BBBABBC", 2),
    (&["AABB", "AAAC", "ABBB"], "CAAABBB", 5),
];

#[test]
fn the_table() {
    for (codes, ribbon, saved) in RIBBONS {
        assert_eq!(laid(codes), (ribbon.to_string(), *saved), "{codes:?}");
    }
}

#[test]
fn the_check_holds_each_ribbon_of_the_table_with_no_difference() {
    for (codes, ribbon, _) in RIBBONS {
        let list = List::of(codes);
        let checked = list.check(ribbon.as_bytes(), &mut marked_places(3));
        assert_eq!(checked, Ok(Checked::Held(0)), "{codes:?}");
    }
}

#[test]
fn the_sheet_returns_the_saved_of_the_table() {
    for (codes, _, saved) in RIBBONS {
        let sheet = List::of(codes).sheet(&mut [0; 500]).unwrap();
        assert_eq!(sheet.saved, *saved, "{codes:?}");
    }
}

#[test]
fn the_last_but_one_meets_the_bound() {
    // Kept lengths 9, the rival ABBBC has 5 bands: 9 = 5 + 2 * 2.
    let list = List::of(&["ABB", "BBC", "BBB"]);
    let (_, saved) = list.laid();
    assert_eq!(list.bands.len(), "ABBBC".len() + 2 * saved);
    let checked = list.check(b"ABBBC", &mut marked_places(3));
    assert_eq!(checked, Ok(Checked::Held(-2)));
}

#[test]
fn a_code_of_64_bands_and_one_of_65() {
    let rows = |bands| file(&[&format!("a,{}", "A".repeat(bands))]);
    assert_eq!(read(&rows(64)).lengths, [64]);
    assert_eq!(file_refusal(&rows(65), Lent::roomy()), refusal(7, 2));
    assert_eq!(laid(&[&"A".repeat(64)]), ("A".repeat(64), 0));
    let long = List::of(&[&"A".repeat(65)]);
    assert_eq!(long.lay(&mut [0; 100]), Err(refusal(12, 0)));
}

#[test]
fn a_list_of_128_codes_and_one_of_129() {
    assert_eq!(read(&long_file(128, &[])).lengths, [2; 128]);
    // The heading is row 1 and code 129 stands in row 130.
    let full = file_refusal(&long_file(129, &[]), Lent::roomy());
    assert_eq!(full, refusal(10, 130));
    // Equal codes are dropped but for the first.
    assert_eq!(laid(&["AB"; 128]), ("AB".to_string(), 0));
    let long = List::of(&["AB"; 129]);
    assert_eq!(long.lay(&mut [0; 300]), Err(refusal(12, 0)));
}

#[test]
fn the_largest_list_fills_the_bounds() {
    // 128 codes of 64 equal bands: all but the first are dropped.
    let list = List::of(&[&"A".repeat(64)[..]; 128]);
    assert_eq!(list.bands.len(), 8_192);
    assert_eq!(list.laid(), ("A".repeat(64), 0));
    assert_eq!(list.places(&"A".repeat(64)).len(), 128);
}

#[test]
fn a_file_of_16384_bytes_and_one_of_16385() {
    // No right file comes near: 128 rows of a quoted name of 24 quotes and a
    // quoted code have 128 * 119 bytes. So a long code fills the file up.
    let padded = |bytes: usize| file(&[&format!("a,{}", "A".repeat(bytes - 15))]);
    assert_eq!(padded(16_384).len(), 16_384);
    assert_eq!(file_refusal(&padded(16_384), Lent::roomy()), refusal(7, 2));
    assert_eq!(padded(16_385).len(), 16_385);
    assert_eq!(file_refusal(&padded(16_385), Lent::roomy()), refusal(1, 0));
}

#[test]
fn a_buffer_of_the_ribbons_length_and_one_less() {
    let list = List::of(&["AABB", "AAAC", "ABBB"]);
    let mut ribbon = marked_bytes(7);
    assert_eq!(
        list.lay(&mut ribbon),
        Ok(Laid {
            length: 7,
            saved: 5
        })
    );
    assert_eq!(ribbon, b"CAAABBB");
    assert_eq!(list.lay(&mut marked_bytes(6)), Err(refusal(13, 0)));
}

#[test]
fn a_ribbon_of_no_bands() {
    for codes in [&["A"][..], &["AB", "CD"], &["A"; 128]] {
        let checked = List::of(codes).check(b"", &mut marked_places(128));
        assert_eq!(checked, Ok(Checked::Missing(0)));
    }
}

#[test]
fn a_ribbon_of_16384_bands_and_one_of_16385() {
    let list = List::of(&["A", "BC"]);
    // The computed ribbon is ABC; BC stands at the very end alone.
    let mut ribbon = vec![b'A'; 16_382];
    ribbon.extend(b"BC");
    let checked = list.check(&ribbon, &mut marked_places(2));
    assert_eq!(checked, Ok(Checked::Held(16_384 - 3)));
    ribbon.push(b'C');
    let checked = list.check(&ribbon, &mut marked_places(2));
    assert_eq!(checked, Err(refusal(15, 0)));
}

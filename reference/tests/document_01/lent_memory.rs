//! Document 01, "Refused orders": what lent memory holds after each call.
//! That a refused reading changes nothing is seen by every test that refuses
//! a file, and the same of false lists.

use crate::common::*;
use reference::{Checked, Laid, Place, Read, Way};

const EXAMPLE: &[&str] = &["AABB", "AAAC", "ABBB"];

#[test]
fn reading_keeps_what_is_past_the_result() {
    let mut lent = Lent::roomy();
    let mut expected = lent.clone();
    let read = lent.read(&file(&["Pump,AABB", "Fan,AAACD"]));
    assert_eq!(
        read,
        Ok(Read {
            codes: 2,
            bands: 9,
            names: 7
        })
    );
    expected.bands[..9].copy_from_slice(b"AABBAAACD");
    expected.lengths[..2].copy_from_slice(&[4, 5]);
    expected.names[..7].copy_from_slice(b"PumpFan");
    expected.sizes[..2].copy_from_slice(&[4, 3]);
    assert_eq!(lent, expected);
}

#[test]
fn reading_into_buffers_of_the_very_length() {
    let mut lent = Lent::of(9, 2, 7, 2);
    assert!(lent.read(&file(&["Pump,AABB", "Fan,AAACD"])).is_ok());
    assert_eq!(lent.bands, b"AABBAAACD");
    assert_eq!(lent.lengths, [4, 5]);
    assert_eq!(lent.names, b"PumpFan");
    assert_eq!(lent.sizes, [4, 3]);
}

#[test]
fn laying_out_keeps_what_is_past_the_result() {
    let mut ribbon = marked_bytes(100);
    let laid = List::of(EXAMPLE).lay(&mut ribbon);
    assert_eq!(
        laid,
        Ok(Laid {
            length: 7,
            saved: 5
        })
    );
    assert_eq!(ribbon[..7], *b"CAAABBB");
    assert_eq!(ribbon[7..], marked_bytes(100)[7..]);
}

#[test]
fn laying_out_refused_changes_nothing() {
    for room in 0..7 {
        let mut ribbon = marked_bytes(room);
        assert_eq!(List::of(EXAMPLE).lay(&mut ribbon), Err(refusal(13, 0)));
        assert_eq!(ribbon, marked_bytes(room));
    }
}

#[test]
fn held_keeps_the_records_past_the_result() {
    let mut places = marked_places(10);
    let checked = List::of(EXAMPLE).check(b"CAAABBB", &mut places);
    assert_eq!(checked, Ok(Checked::Held(0)));
    let expected = [Way::Given(2), Way::Turned(0), Way::Given(3)];
    for (code, way) in (0..).zip(expected) {
        assert_eq!(places[code as usize], Place { code, way });
    }
    assert_eq!(places[3..], marked_places(10)[3..]);
}

#[test]
fn missing_leaves_the_records_as_before() {
    let mut places = marked_places(10);
    // The first two codes have places, the last one has none.
    let checked = List::of(EXAMPLE).check(b"CAAABB", &mut places);
    assert_eq!(checked, Ok(Checked::Missing(2)));
    assert_eq!(places, marked_places(10));
}

#[test]
fn a_refused_check_leaves_the_records_as_before() {
    let long = [&b"CAAABBB"[..], &[b'A'; 16_384]].concat();
    let cases = [
        (15, &long[..], 10),
        (8, b"CAAABBB.", 10),
        (13, b"CAAABBB", 2),
    ];
    for (number, ribbon, room) in cases {
        let mut places = marked_places(room);
        let checked = List::of(EXAMPLE).check(ribbon, &mut places);
        assert_eq!(checked, Err(refusal(number, 0)));
        assert_eq!(places, marked_places(room));
    }
}

#[test]
fn the_sheet_keeps_what_is_past_the_result() {
    // With CR LF a heading of 29 bytes and a row of 18.
    let mut out = marked_bytes(100);
    let sheet = List::named(&[("Fan", "AB")]).sheet(&mut out).unwrap();
    assert_eq!(sheet.length, 47);
    let expected = b"name,way,start,bands,places\r\nFan,given,0,AB,1\r\n";
    assert_eq!(out[..47], *expected);
    assert_eq!(out[47..], marked_bytes(100)[47..]);
}

#[test]
fn a_refused_sheet_changes_nothing() {
    for room in 0..47 {
        let mut out = marked_bytes(room);
        let sheet = List::named(&[("Fan", "AB")]).sheet(&mut out);
        assert_eq!(sheet, Err(refusal(13, 0)));
        assert_eq!(out, marked_bytes(room));
    }
}

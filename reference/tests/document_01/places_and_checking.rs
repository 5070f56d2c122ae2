//! Document 01, "Places and checking".

use crate::common::*;
use reference::{Checked, Place, Way};

/// The place of one code on a row that holds it.
fn way(code: &str, row: &str) -> Way {
    List::of(&[code]).places(row)[0].way
}

#[test]
fn the_smallest_start_of_either_way() {
    for (code, row, expected) in [
        ("AB", "AB", Way::Given(0)),
        ("AB", "CABAB", Way::Given(1)),
        ("AB", "BA", Way::Turned(0)),
        ("AB", "CBABA", Way::Turned(1)),
        // Each way stands, one of them first.
        ("AB", "ABA", Way::Given(0)),
        ("AB", "BAB", Way::Turned(0)),
        ("ABC", "ABBCBABC", Way::Turned(3)),
        ("ABC", "ABBABCBA", Way::Given(3)),
        // At the very end.
        ("ABC", "XXXABC", Way::Given(3)),
        ("ABC", "XXXCBA", Way::Turned(3)),
        // A start whose first bands match is not yet a place.
        ("AAB", "AAAAB", Way::Given(2)),
        ("ABAC", "ABABAC", Way::Given(2)),
    ] {
        assert_eq!(way(code, row), expected, "{code} on {row}");
    }
}

// Given by document 01, until document 02's M-103.
#[test]
fn where_both_ways_stand_the_way_is_either() {
    for code in ["A", "AA", "ABA", "ABBA"] {
        assert_eq!(way(code, &format!("XY{code}")), Way::Either(2), "{code}");
    }
}

#[test]
fn a_record_for_each_listed_code_in_list_order() {
    // B and CBA are dropped, and have records all the same.
    let list = List::of(&["B", "ABC", "CBA", "CD"]);
    let record = |code, way| Place { code, way };
    let expected = [
        record(0, Way::Either(2)),
        record(1, Way::Given(1)),
        record(2, Way::Turned(1)),
        record(3, Way::Given(3)),
    ];
    assert_eq!(list.places("XABCD"), expected);
}

#[test]
fn the_lowest_code_that_has_no_place_is_missing() {
    let missing =
        |codes: &[&str], row: &str| List::of(codes).check(row.as_bytes(), &mut marked_places(9));
    for (codes, row, code) in [
        (&["AB", "CD", "EF"][..], "AB", 1),
        (&["AB", "CD", "EF"], "CDEF", 0),
        (&["AB", "CD", "EF"], "CDAB", 2),
        // The bands are there, but not as neighbours in either way.
        (&["ABC"], "ABDCBDACB", 0),
        // One band too few.
        (&["AB", "ABC"], "AB", 1),
        (&["ABC"], "AB", 0),
    ] {
        let checked = missing(codes, row);
        assert_eq!(checked, Ok(Checked::Missing(code)), "{codes:?} on {row}");
    }
}

#[test]
fn the_difference_below_at_and_above_zero() {
    // The computed ribbons are ABC, and BBBABBC of 7.
    for (codes, row, difference) in [
        (&["AB", "BC"][..], "ABC", 0),
        (&["AB", "BC"], "CBA", 0),
        (&["AB", "BC"], "XABCX", 2),
        (&["AB", "BC"], "ABBC", 1),
        (&["ABB", "BBC", "BBB"], "ABBBC", -2),
        (&["ABB", "BBC", "BBB"], "XABBBC", -1),
        (&["ABB", "BBC", "BBB"], "BBBABBC", 0),
    ] {
        let checked = List::of(codes).check(row.as_bytes(), &mut marked_places(3));
        assert_eq!(checked, Ok(Checked::Held(difference)), "{row}");
    }
}

//! Document 01, "Dropping". A dropped code leaves the ribbon as it is without
//! it, so each list stands beside the ribbon of its kept codes.

use crate::common::*;

#[test]
fn a_code_inside_a_longer_one_is_dropped() {
    // At the front, in the middle and at the end; before it and after it.
    for inner in ["AB", "BC", "CD", "BA", "CB", "DC", "A", "D", "ABC", "DCB"] {
        assert_eq!(laid(&["ABCD", inner]), ("ABCD".to_string(), 0), "{inner}");
        assert_eq!(laid(&[inner, "ABCD"]), ("ABCD".to_string(), 0), "{inner}");
    }
}

#[test]
fn of_equally_long_codes_the_lower_number_is_kept() {
    assert_eq!(laid(&["ABC", "CBA"]), ("ABC".to_string(), 0));
    assert_eq!(laid(&["CBA", "ABC"]), ("CBA".to_string(), 0));
    assert_eq!(laid(&["ABC", "ABC"]), ("ABC".to_string(), 0));
}

#[test]
fn a_code_that_is_no_run_of_neighbouring_bands_is_kept() {
    // AC has its bands in ABC, but they are not neighbours. Faces ABC 0,
    // CBA 1, AC 2, CA 3: of the overlaps of 1 the lowest is 0 to 3, by C.
    assert_eq!(laid(&["ABC", "AC"]), ("ABCA".to_string(), 1));
}

#[test]
fn a_code_over_the_join_of_two_others_is_kept() {
    // BC stands on ABCD whatever happens, but in neither AB nor CD. Faces AB
    // 0, BA 1, CD 2, DC 3, BC 4, CB 5: 0 to 4 by B, then 4 to 2 by C.
    assert_eq!(laid(&["AB", "CD", "BC"]), ("ABCD".to_string(), 2));
}

#[test]
fn kept_codes_are_numbered_anew() {
    // B is dropped, so AB is face 0 and BC face 2, as if B were not there.
    assert_eq!(laid(&["B", "AB", "CD"]), ("ABCD".to_string(), 0));
    assert_eq!(
        laid(&["AB", "B", "CD", "BA", "EF"]),
        laid(&["AB", "CD", "EF"])
    );
}

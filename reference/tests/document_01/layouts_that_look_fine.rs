//! Document 01, "Layouts that look fine": none of them may come out.

use crate::common::*;
use reference::{Place, Way};

fn come_out(rows: &[(&[&str], &str, usize)]) {
    for (codes, ribbon, saved) in rows {
        assert_eq!(laid(codes), (ribbon.to_string(), *saved), "{codes:?}");
    }
}

#[test]
fn no_code_joins_its_own_turned_form() {
    // ABB and BBA share BB, but are faces of one code.
    come_out(&[
        (&["ABB"], "ABB", 0),
        (&["ABB", "CD"], "ABBCD", 0),
        // Faces ABB 0, BBA 1, CAD 2, DAC 3: the codes share no end, so the
        // lowest allowed a and b are 0 and 2.
        (&["ABB", "CAD"], "ABBCAD", 0),
    ]);
}

#[test]
fn one_of_two_codes_that_are_each_others_turned_form_is_kept() {
    come_out(&[
        (&["AB", "BA"], "AB", 0),
        (&["BA", "AB"], "BA", 0),
        (&["ABC", "CBA", "ABC"], "ABC", 0),
    ]);
}

#[test]
fn no_piece_closes_on_itself() {
    come_out(&[
        // ABC to CDA is joined by C; CDA to ABC by A would close the ring.
        (&["ABC", "CDA"], "ABCDA", 1),
        // Then overlap 0 is the best allowed. The lowest end is face 1, of
        // the piece 3 1 (ADCBA), and the lowest beginning for it is face 4
        // (EF), face 0 being its mirror: 3 1 4, mirrored 5 0 2.
        (&["ABC", "CDA", "EF"], "FEABCDA", 1),
        // 0 to 2 uses up the beginning of 1 too, by the mirror join 3 to 1;
        // else ABACABA would come out.
        (&["ABA", "ACA"], "ABACA", 1),
    ]);
}

#[test]
fn joining_goes_on_when_the_best_overlap_is_0() {
    come_out(&[
        (&["AB", "CD"], "ABCD", 0),
        // 0 to 2 first. Of the ends left, 1 is the lowest (piece 3 1), and it
        // goes to 4: DCBAEF, mirrored FEABCD, which holds face 0.
        (&["AB", "CD", "EF"], "FEABCD", 0),
    ]);
}

#[test]
fn places_are_searched_in_both_reading_directions() {
    let places = |codes: &[&str], ribbon| List::of(codes).places(ribbon);
    let turned = |code, start| Place {
        code,
        way: Way::Turned(start),
    };
    let given = |code, start| Place {
        code,
        way: Way::Given(start),
    };
    // AAAC stands as CAAA alone.
    let expected = [given(0, 2), turned(1, 0), given(2, 3)];
    assert_eq!(places(&["AABB", "AAAC", "ABBB"], "CAAABBB"), expected);
    // The turned way stands first although the given way stands too.
    assert_eq!(places(&["AB"], "BAAB"), [turned(0, 0)]);
    assert_eq!(places(&["AB"], "ABBA"), [given(0, 0)]);
}

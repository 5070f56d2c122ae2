//! Document 01, "Joining": the tie rule, and overlaps of faces.

use crate::common::*;

#[test]
fn the_largest_overlap_comes_first() {
    // Faces ABC 0, CBA 1, CDE 2, EDC 3, BCF 4, FCB 5: 0 to 4 shares BC, more
    // than 0 to 2, which shares C. Then of overlap 0, the end 1 of piece 5 1
    // goes to the beginning 2: FCBA CDE. Mirrored it holds face 0.
    assert_eq!(laid(&["ABC", "CDE", "BCF"]), ("EDCABCF".to_string(), 2));
}

#[test]
fn of_equal_overlaps_the_lowest_a() {
    // Faces CAB 0, BAC 1, DAB 2, BAD 3, ABE 4, EBA 5: 0 and 2 both go to 4 by
    // AB, and 0 does. Nothing else overlaps; the end 1 of piece 5 1 goes to
    // 2: EBAC DAB. Mirrored it holds face 0.
    assert_eq!(laid(&["CAB", "DAB", "ABE"]), ("BADCABE".to_string(), 2));
    assert_eq!(laid(&["DAB", "CAB", "ABE"]), ("BACDABE".to_string(), 2));
    // Faces DE 0, ED 1, AB 2, BA 3, BC 4, CB 5: only 2 to 4 overlaps. Then
    // 0 (a) goes to 2 (b), which begins piece 2 4.
    assert_eq!(laid(&["DE", "AB", "BC"]), ("DEABC".to_string(), 1));
}

#[test]
fn a_comes_before_b() {
    // Faces ABC 0, CBA 1, CDA 2, ADC 3: 0 to 2 has the lowest a, 2 to 0 the
    // lowest b. The second would give CDABC.
    assert_eq!(laid(&["ABC", "CDA"]), ("ABCDA".to_string(), 1));
}

#[test]
fn of_equal_a_the_lowest_b() {
    // Faces AB 0, BA 1, BC 2, CB 3, BD 4, DB 5: 0 could go to 2 or 4 by B and
    // goes to 2. The beginning 2 and the end 3 are used up, so nothing else
    // overlaps; the end 1 of piece 3 1 goes to 4: CBABD, mirrored DBABC.
    assert_eq!(laid(&["AB", "BC", "BD"]), ("DBABC".to_string(), 1));
    // The same with the later two exchanged.
    assert_eq!(laid(&["AB", "BD", "BC"]), ("CBABD".to_string(), 1));
}

#[test]
fn faces_that_read_alike_are_two() {
    // Faces ABA 0 and 1, CDC 2 and 3. All overlaps are 0, so 0 goes to 2.
    assert_eq!(laid(&["ABA", "CDC"]), ("ABACDC".to_string(), 0));
    // 0 to 2 by A; then the end 1 of piece 3 1 goes by A to 4: ACABADA,
    // mirrored ADABACA, which holds face 0.
    assert_eq!(laid(&["ABA", "ACA", "ADA"]), ("ADABACA".to_string(), 2));
}

#[test]
fn the_piece_that_holds_face_0_is_read() {
    // Only 1 to 2 and 3 to 0 overlap (A, and mirrored): face 0 is in 3 0.
    assert_eq!(laid(&["AB", "AC"]), ("CAB".to_string(), 1));
    // With the codes exchanged face 0 is AC.
    assert_eq!(laid(&["AC", "AB"]), ("BAC".to_string(), 1));
}

//! Document 01, "Refused orders": the order of refusals, by inputs that have
//! both faults.

use crate::common::*;
use reference::{Checked, Refusal};

/// Both numbers go for the row; the first is given.
fn first_of(pairs: &[((u8, u8), &[u8], u32)]) {
    for ((number, other), file, row) in pairs {
        let given = file_refusal(file, Lent::roomy());
        assert_eq!(given, refusal(*number, *row), "{number} before {other}");
    }
}

/// Both numbers go for row 130, which would be code 129 under the list of
/// N0 to N127.
fn first_of_row_130(pairs: &[((u8, u8), &str)]) {
    for ((number, other), row) in pairs {
        let given = file_refusal(&long_file(128, &[row]), Lent::roomy());
        assert_eq!(given, refusal(*number, 130), "{number} before {other}");
    }
}

#[test]
fn a_long_file_before_every_row() {
    // Each has a faulty row as well: 2, 3, 4, 8, and 3 in row 2.
    for start in [
        "\"",
        "\r\n",
        "names,code\r\n",
        "name,code\r\na,b\r\n",
        "name,code\r\n",
    ] {
        let mut file = start.as_bytes().to_vec();
        file.resize(16_385, b'a');
        assert_eq!(file_refusal(&file, Lent::roomy()), refusal(1, 0));
    }
}

#[test]
fn an_earlier_row_before_a_later_one_with_a_lower_number() {
    first_of(&[
        ((4, 2), b"names,code\r\na\"b,AB\r\n", 1),
        ((4, 3), b"names,code\r\na\r\n", 1),
        ((3, 2), b"name,code\r\na\r\nb\"c,AB\r\n", 2),
        ((5, 3), b"name,code\r\n,AB\r\nb\r\n", 2),
        ((6, 5), b"name,code\r\na,\r\n,AB\r\n", 2),
        ((8, 2), b"name,code\r\na,b\r\n\"b,AB", 2),
        ((8, 5), b"name,code\r\na,b\r\n,AB\r\n", 2),
        ((9, 8), b"name,code\r\na,AB\r\na,AB\r\nb,b\r\n", 3),
    ]);
    let given = file_refusal(&long_file(129, &["a\"b,AB"]), Lent::roomy());
    assert_eq!(given, refusal(10, 130), "10 before 2");
}

#[test]
fn in_one_row_2_before_every_other() {
    first_of(&[
        ((2, 3), b"name,code\r\na\tb\r\n", 2),
        ((2, 3), b"name,code\r\na,AB,C\rD\r\n", 2),
        ((2, 3), b"\x7F", 1),
        ((2, 4), b"names,co\"de\r\na,AB\r\n", 1),
        ((2, 4), b"names,code\na,AB\n", 1),
        ((2, 5), b"name,code\r\n,A\tB\r\n", 2),
        ((2, 5), b"name,code\r\n\"a\r\nb\",\"AB\r\n", 2),
        ((2, 6), b"name,code\r\na\"b,\r\n", 2),
        ((2, 8), b"name,code\r\na,b\n", 2),
        ((2, 9), b"name,code\r\na,AB\r\na,\"AB\"\"\r\n", 3),
    ]);
    let long = format!("a\"b,{}", "A".repeat(65));
    assert_eq!(file_refusal(&file(&[&long]), Lent::roomy()), refusal(2, 2));
    first_of_row_130(&[((2, 10), "a\"b,AB")]);
}

#[test]
fn in_one_row_3_before_every_higher_one() {
    first_of(&[
        ((3, 4), b"names\r\na,AB\r\n", 1),
        ((3, 4), b"names,code,way\r\na,AB\r\n", 1),
        ((3, 5), b"name,code\r\n,AB,C\r\n", 2),
        ((3, 5), b"name,code\r\n\r\n", 2),
        ((3, 6), b"name,code\r\na,,\r\n", 2),
        ((3, 8), b"name,code\r\na,b,c\r\n", 2),
        ((3, 9), b"name,code\r\na,AB\r\na,AB,C\r\n", 3),
    ]);
    let long = format!("a,{},", "A".repeat(65));
    assert_eq!(file_refusal(&file(&[&long]), Lent::roomy()), refusal(3, 2));
    first_of_row_130(&[((3, 10), "a")]);
}

#[test]
fn numbers_5_to_10_are_not_for_the_heading() {
    first_of(&[
        ((4, 5), b",code\r\na,AB\r\n", 1),
        ((4, 6), b"name,\r\na,AB\r\n", 1),
        // The right heading's `code` has no bands A to Z in it.
        ((11, 8), b"name,code\r\n", 0),
    ]);
}

/// Number 5 can't meet 9: a bad name is not taken, as its row was refused.
/// Number 6 can't meet 7 or 8: an empty field is not long and has no bytes.
#[test]
fn in_one_row_5_to_8_before_the_higher_ones() {
    let long = "A".repeat(65);
    let cases = [
        ((5, 6), ",".to_string()),
        ((5, 7), format!(",{long}")),
        ((5, 8), ",b".to_string()),
        ((6, 9), "N0,".to_string()),
        ((7, 8), format!("a,b{long}")),
        ((7, 9), format!("N0,{long}")),
        ((8, 9), "N0,b".to_string()),
    ];
    for ((number, other), row) in cases {
        let given = file_refusal(&long_file(1, &[&row]), Lent::roomy());
        assert_eq!(given, refusal(number, 3), "{number} before {other}");
    }
}

#[test]
fn in_one_row_5_to_9_before_10() {
    let long = format!("a,{}", "A".repeat(65));
    first_of_row_130(&[
        ((5, 10), ",AB"),
        ((6, 10), "a,"),
        ((7, 10), &long),
        ((8, 10), "a,b"),
        ((9, 10), "N127,AB"),
    ]);
}

#[test]
fn every_fault_of_a_file_before_13() {
    let no_room = || Lent::of(0, 0, 0, 0);
    // A file of no codes fits any buffer, so 11 and 13 can't both go for it.
    assert_eq!(file_refusal(b"name,code\r\n", no_room()), refusal(11, 0));
    assert_eq!(file_refusal(b"", no_room()), refusal(4, 0));
    assert_eq!(file_refusal(&[b'a'; 16_385], no_room()), refusal(1, 0));
    // The rows before the faulty one fill more than the buffers.
    for (number, row) in [
        (2, "a\"b,AB"),
        (3, "a"),
        (5, ",AB"),
        (6, "a,"),
        (8, "a,b"),
        (9, "N0,AB"),
    ] {
        let given = file_refusal(&long_file(2, &[row]), no_room());
        assert_eq!(given, refusal(number, 4));
    }
    let long = format!("a,{}", "A".repeat(65));
    assert_eq!(file_refusal(&file(&[&long]), no_room()), refusal(7, 2));
    assert_eq!(
        file_refusal(&long_file(129, &[]), no_room()),
        refusal(10, 130)
    );
}

#[test]
fn laying_out_12_before_13() {
    let mut list = List::of(&["AB", "CD"]);
    assert_eq!(list.lay(&mut []), Err(refusal(13, 0)));
    list.lengths[0] = 3;
    assert_eq!(list.lay(&mut []), Err(refusal(12, 0)));
}

/// The check of a list into so many records.
fn check(list: &List, ribbon: &[u8], room: usize) -> Result<Checked, Refusal> {
    list.check(ribbon, &mut marked_places(room))
}

#[test]
fn checking_12_before_all_else() {
    let list = List {
        lengths: vec![2, 3],
        ..List::of(&["AB", "CD"])
    };
    let long = [b'A'; 16_385];
    assert_eq!(check(&list, &long, 2), Err(refusal(12, 0)), "15");
    assert_eq!(check(&list, b"ABCD.", 2), Err(refusal(12, 0)), "8");
    assert_eq!(check(&list, b"", 2), Err(refusal(12, 0)), "missing");
    assert_eq!(check(&list, b"ABCD", 0), Err(refusal(12, 0)), "13");
}

#[test]
fn checking_15_before_8_missing_and_13() {
    let list = List::of(&["AB", "CD"]);
    let unknown = [b'.'; 16_385];
    assert_eq!(check(&list, &unknown, 2), Err(refusal(15, 0)), "8");
    let mut long = [b'A'; 16_385];
    assert_eq!(check(&list, &long, 2), Err(refusal(15, 0)), "missing");
    long[..4].copy_from_slice(b"ABCD");
    assert_eq!(check(&list, &long, 0), Err(refusal(15, 0)), "13");
}

#[test]
fn checking_8_before_missing_and_13() {
    let list = List::of(&["AB", "CD"]);
    assert_eq!(check(&list, b"AB.", 2), Err(refusal(8, 0)), "missing");
    assert_eq!(check(&list, b"ABCD.", 0), Err(refusal(8, 0)), "13");
}

#[test]
fn checking_gives_13_only_where_it_would_answer_held() {
    let list = List::of(&["AB", "CD"]);
    for room in [0, 1] {
        assert_eq!(check(&list, b"ABCD", room), Err(refusal(13, 0)));
        assert_eq!(check(&list, b"AB", room), Ok(Checked::Missing(1)));
    }
}

#[test]
fn writing_the_sheet_12_before_13() {
    let right = List::of(&["AB", "CD"]);
    assert_eq!(right.sheet(&mut []), Err(refusal(13, 0)));
    let codes = List {
        lengths: vec![2, 3],
        ..right.clone()
    };
    assert_eq!(codes.sheet(&mut []), Err(refusal(12, 0)));
    let names = List {
        sizes: vec![2, 3],
        ..right
    };
    assert_eq!(names.sheet(&mut []), Err(refusal(12, 0)));
}

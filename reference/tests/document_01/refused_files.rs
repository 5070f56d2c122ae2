//! Document 01, "Refused orders", numbers 1 to 11 and 13: each condition of
//! the table by itself, with its row.

use crate::common::*;

type Rows = [(&'static str, &'static [u8], u32)];

/// Each file is refused with the number and the row beside it.
fn refused(number: u8, rows: &Rows) {
    for (what, file, row) in rows {
        let given = file_refusal(file, Lent::roomy());
        assert_eq!(given, refusal(number, *row), "{what}");
    }
}

#[test]
fn number_1_long_file() {
    // One byte too many, of every kind of file.
    let right = [&b"name,code\r\na,AB\r\n"[..], &[b'A'; 16_385 - 17]].concat();
    for file in [
        vec![0; 16_385],
        vec![b'\n'; 16_385],
        right,
        vec![b'"'; 70_000],
    ] {
        assert_eq!(file_refusal(&file, Lent::roomy()), refusal(1, 0));
    }
}

#[test]
fn number_2_a_quote_inside_an_unquoted_field() {
    refused(
        2,
        &[
            ("in the middle", b"name,code\r\na\"b,AB\r\n", 2),
            ("at the end", b"name,code\r\na\",AB\r\n", 2),
            ("a pair of quotes", b"name,code\r\na\"\"b,AB\r\n", 2),
            ("after a space", b"name,code\r\n \"a\",AB\r\n", 2),
            ("in the code", b"name,code\r\na,A\"B\r\n", 2),
            ("in the heading", b"na\"me,code\r\na,AB\r\n", 1),
            ("in row 3", b"name,code\r\na,AB\r\nb\"c,AB\r\n", 3),
        ],
    );
}

#[test]
fn number_2_text_after_a_closing_quote() {
    refused(
        2,
        &[
            ("a letter", b"name,code\r\n\"a\"b,AB\r\n", 2),
            ("a space", b"name,code\r\na,\"AB\" \r\n", 2),
            ("after no text", b"name,code\r\n\"\"a,AB\r\n", 2),
            (
                "after a doubled quote",
                b"name,code\r\n\"a\"\"\"b,AB\r\n",
                2,
            ),
            ("a quoted text again", b"name,code\r\n\"a\" \"b\",AB\r\n", 2),
            ("in the heading", b"name,\"code\"x\r\na,AB\r\n", 1),
            ("in row 3", b"name,code\r\na,AB\r\n\"b\"c,AB\r\n", 3),
        ],
    );
}

#[test]
fn number_2_cr_or_lf_alone_outside_quotes() {
    refused(
        2,
        &[
            ("CR alone in a name", b"name,code\r\na\rb,AB\r\n", 2),
            ("CR alone in a code", b"name,code\r\na,A\rB\r\n", 2),
            ("CR alone at the end", b"name,code\r\na,AB\r", 2),
            ("CR CR LF", b"name,code\r\na,AB\r\r\n", 2),
            (
                "CR alone after a closing quote",
                b"name,code\r\na,\"AB\"\r",
                2,
            ),
            ("CR alone as a row", b"name,code\r\n\r", 2),
            ("CR for CR LF", b"name,code\ra,AB\r", 1),
            ("LF alone in a name", b"name,code\r\na\nb,AB\r\n", 2),
            ("LF alone in a code", b"name,code\r\na,A\nB\r\n", 2),
            ("LF alone at the end", b"name,code\r\na,AB\n", 2),
            (
                "LF alone after a closing quote",
                b"name,code\r\na,\"AB\"\n",
                2,
            ),
            ("LF alone as a row", b"name,code\r\n\n", 2),
            ("LF CR", b"name,code\r\na,AB\n\r", 2),
            ("LF for CR LF", b"name,code\na,AB\n", 1),
        ],
    );
}

#[test]
fn number_2_a_quote_never_closed() {
    refused(
        2,
        &[
            ("a name", b"name,code\r\n\"a,AB\r\nb,AB\r\n", 2),
            ("a code", b"name,code\r\na,\"AB\r\nb,AB\r\n", 2),
            ("the last byte", b"name,code\r\na,\"", 2),
            ("an odd run of quotes", b"name,code\r\na,\"\"\"", 2),
            ("ended by a doubled quote", b"name,code\r\n\"a\"\"", 2),
            ("the heading", b"\"name,code\r\na,AB\r\n", 1),
            ("a file of one quote", b"\"", 1),
            ("row 3", b"name,code\r\na,AB\r\n\"b,AB", 3),
        ],
    );
}

#[test]
fn number_2_a_forbidden_byte_quoted_or_not() {
    let allowed = |byte: u8| byte == b'\r' || byte == b'\n' || (0x20..=0x7E).contains(&byte);
    for byte in (0..=255).filter(|byte| !allowed(*byte)) {
        for (before, after, row) in [
            (&b"name,code\r\na"[..], &b"b,AB\r\n"[..], 2),
            (b"name,code\r\n\"a", b"b\",AB\r\n", 2),
            (b"name,code\r\na,A", b"B\r\n", 2),
            (b"name,code\r\na,\"A", b"B\"\r\n", 2),
            (b"name,code\r\na,AB\r\nb,AB\r\nc", b",AB", 4),
            (b"", b"name,code\r\na,AB\r\n", 1),
            (b"\"", b"name\",code\r\na,AB\r\n", 1),
        ] {
            let file = [before, &[byte], after].concat();
            let given = file_refusal(&file, Lent::roomy());
            assert_eq!(given, refusal(2, row), "byte {byte} after {before:?}");
        }
    }
}

#[test]
fn number_3_wrong_width() {
    refused(
        3,
        &[
            ("one field", b"name,code\r\na\r\n", 2),
            ("one quoted field", b"name,code\r\n\"a,AB\"\r\n", 2),
            ("three fields", b"name,code\r\na,AB,C\r\n", 2),
            ("three fields, the last empty", b"name,code\r\na,AB,\r\n", 2),
            ("a blank line", b"name,code\r\n\r\na,AB\r\n", 2),
            (
                "a blank line between rows",
                b"name,code\r\na,AB\r\n\r\nb,AB\r\n",
                3,
            ),
            ("a blank line at the end", b"name,code\r\na,AB\r\n\r\n", 3),
            ("a blank line after the heading", b"name,code\r\n\r\n", 2),
            ("a heading of one field", b"name\r\na,AB\r\n", 1),
            ("a heading of three fields", b"name,code,way\r\na,AB\r\n", 1),
            ("a blank heading", b"\r\nname,code\r\na,AB\r\n", 1),
            ("a file of CR LF", b"\r\n", 1),
            ("a file of one byte", b"a", 1),
            ("a file of an empty quoted field", b"\"\"", 1),
        ],
    );
}

#[test]
fn number_4_wrong_heading() {
    refused(
        4,
        &[
            ("a file of 0 bytes", b"", 0),
            ("the first field", b"names,code\r\na,AB\r\n", 1),
            ("the second field", b"name,codes\r\na,AB\r\n", 1),
            ("exchanged", b"code,name\r\na,AB\r\n", 1),
            ("in capitals", b"Name,Code\r\na,AB\r\n", 1),
            ("a space", b"name, code\r\na,AB\r\n", 1),
            ("a doubled quote", b"\"na\"\"me\",code\r\na,AB\r\n", 1),
            (
                "a line break in quotes",
                b"\"name\r\n\",code\r\na,AB\r\n",
                1,
            ),
            ("no heading", b"a,AB\r\n", 1),
            ("two empty fields", b",", 1),
        ],
    );
}

#[test]
fn number_5_bad_name() {
    refused(
        5,
        &[
            ("empty", b"name,code\r\n,AB\r\n", 2),
            ("empty and quoted", b"name,code\r\n\"\",AB\r\n", 2),
            (
                "25 bytes",
                b"name,code\r\nabcdefghijklmnopqrstuvwxy,AB\r\n",
                2,
            ),
            (
                "25 bytes, quoted",
                b"name,code\r\n\"abcdefghijklmnopqrstuvwxy\",AB\r\n",
                2,
            ),
            ("CR LF in quotes", b"name,code\r\n\"a\r\nb\",AB\r\n", 2),
            ("CR in quotes", b"name,code\r\n\"a\rb\",AB\r\n", 2),
            ("LF in quotes", b"name,code\r\n\"a\nb\",AB\r\n", 2),
            ("in row 3", b"name,code\r\na,AB\r\n,AB\r\n", 3),
        ],
    );
}

#[test]
fn number_6_no_bands() {
    refused(
        6,
        &[
            ("empty", b"name,code\r\na,\r\n", 2),
            ("empty at the end of the file", b"name,code\r\na,", 2),
            ("empty and quoted", b"name,code\r\na,\"\"\r\n", 2),
            ("in row 3", b"name,code\r\na,AB\r\nb,\r\n", 3),
        ],
    );
}

#[test]
fn number_7_long_code() {
    for bands in [65, 66, 1_000] {
        let code = "A".repeat(bands);
        for row in [format!("b,{code}"), format!("b,\"{code}\"")] {
            let given = file_refusal(&file(&["a,AB", &row]), Lent::roomy());
            assert_eq!(given, refusal(7, 3), "{bands}");
        }
    }
}

#[test]
fn number_8_unknown_colour() {
    refused(
        8,
        &[
            ("below A", b"name,code\r\na,A@\r\n", 2),
            ("above Z", b"name,code\r\na,[A\r\n", 2),
            ("a small letter", b"name,code\r\na,Ab\r\n", 2),
            ("a digit", b"name,code\r\na,1\r\n", 2),
            ("a space", b"name,code\r\na, AB\r\n", 2),
            ("a comma in quotes", b"name,code\r\na,\"A,B\"\r\n", 2),
            ("a doubled quote", b"name,code\r\na,\"A\"\"B\"\r\n", 2),
            ("CR LF in quotes", b"name,code\r\na,\"AB\r\n\"\r\n", 2),
            ("CR in quotes", b"name,code\r\na,\"A\rB\"\r\n", 2),
            ("LF in quotes", b"name,code\r\na,\"A\nB\"\r\n", 2),
            ("in row 3", b"name,code\r\na,AB\r\nb,Ab\r\n", 3),
        ],
    );
}

#[test]
fn number_9_name_taken() {
    refused(
        9,
        &[
            ("by the row before", b"name,code\r\na,AB\r\na,CD\r\n", 3),
            ("by the same row again", b"name,code\r\na,AB\r\na,AB\r\n", 3),
            (
                "by a row further up",
                b"name,code\r\na,AB\r\nb,AB\r\na,CD\r\n",
                4,
            ),
            ("quoted", b"name,code\r\na,AB\r\n\"a\",CD\r\n", 3),
            (
                "with a doubled quote",
                b"name,code\r\n\"\"\"\",AB\r\n\"\"\"\",CD\r\n",
                3,
            ),
        ],
    );
}

#[test]
fn number_10_list_full() {
    // Row 130 would be code 129, whatever follows it.
    for codes in [129, 130, 200] {
        let given = file_refusal(&long_file(codes, &[]), Lent::roomy());
        assert_eq!(given, refusal(10, 130), "{codes}");
    }
}

#[test]
fn number_11_empty_list() {
    refused(
        11,
        &[
            ("a heading", b"name,code\r\n", 0),
            ("a heading without CR LF", b"name,code", 0),
            ("a quoted heading", b"\"name\",\"code\"", 0),
        ],
    );
}

#[test]
fn number_13_each_buffer_one_too_short() {
    // Two codes, nine bands, seven bytes of names.
    let right = file(&["Pump,AABB", "Fan,AAACD"]);
    assert!(Lent::of(9, 2, 7, 2).read(&right).is_ok());
    for (what, lent) in [
        ("bands", Lent::of(8, 2, 7, 2)),
        ("lengths", Lent::of(9, 1, 7, 2)),
        ("names", Lent::of(9, 2, 6, 2)),
        ("sizes", Lent::of(9, 2, 7, 1)),
        ("all", Lent::of(0, 0, 0, 0)),
    ] {
        assert_eq!(file_refusal(&right, lent), refusal(13, 0), "{what}");
    }
}

#[test]
fn a_line_break_in_quotes_starts_no_row() {
    // A row with one in it is refused (5 or 8, or 4 for the heading), and it
    // is refused as that row even where the fault comes after the break.
    for (number, file) in [
        (2, &b"name,code\r\n\"a\r\nb\r\nc\",A\tB\r\n"[..]),
        (3, b"name,code\r\n\"a\r\n\r\nb\"\r\n"),
        (5, b"name,code\r\n\"a\r\n\r\nb\",AB\r\n"),
        (8, b"name,code\r\na,\"A\r\nb,AB\r\nB\"\r\n"),
    ] {
        assert_eq!(file_refusal(file, Lent::roomy()), refusal(number, 2));
    }
}

#[test]
fn the_words() {
    let words = [
        "long file",
        "broken row",
        "wrong width",
        "wrong heading",
        "bad name",
        "no bands",
        "long code",
        "unknown colour",
        "name taken",
        "list full",
        "empty list",
        "false list",
        "short buffer",
        "", // 14 is retired
        "long ribbon",
    ];
    for (number, word) in (1..).zip(words) {
        assert_eq!(refusal(number, 0).word(), word);
    }
    assert_eq!((refusal(0, 0).word(), refusal(16, 0).word()), ("", ""));
}

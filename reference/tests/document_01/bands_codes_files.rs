//! Document 01, "Bands, codes, files": what is read from right files.

use crate::common::*;
use reference::ribbon_of;

/// Names and codes.
type Orders = &'static [(&'static str, &'static str)];

/// Right files and what is in them.
const RIGHT: &[(&str, &[u8], Orders)] = &[
    ("one row", b"name,code\r\na,AB\r\n", &[("a", "AB")]),
    ("no final CR LF", b"name,code\r\na,AB", &[("a", "AB")]),
    (
        "two rows",
        b"name,code\r\na,AB\r\nb,C\r\n",
        &[("a", "AB"), ("b", "C")],
    ),
    (
        "two rows, no final CR LF",
        b"name,code\r\na,AB\r\nb,C",
        &[("a", "AB"), ("b", "C")],
    ),
    (
        "a quoted heading",
        b"\"name\",\"code\"\r\na,AB\r\n",
        &[("a", "AB")],
    ),
    (
        "half the heading quoted",
        b"name,\"code\"\r\na,AB\r\n",
        &[("a", "AB")],
    ),
    (
        "a quoted name",
        b"name,code\r\n\"a\",AB\r\n",
        &[("a", "AB")],
    ),
    (
        "a quoted code",
        b"name,code\r\na,\"AB\"\r\n",
        &[("a", "AB")],
    ),
    (
        "quoted fields to the end",
        b"name,code\r\n\"a\",\"AB\"",
        &[("a", "AB")],
    ),
    (
        "a comma in quotes",
        b"name,code\r\n\"a,b\",AB\r\n",
        &[("a,b", "AB")],
    ),
    (
        "a doubled quote",
        b"name,code\r\n\"a\"\"b\",AB\r\n",
        &[("a\"b", "AB")],
    ),
    (
        "a doubled quote alone",
        b"name,code\r\n\"\"\"\",AB\r\n",
        &[("\"", "AB")],
    ),
    (
        "doubled quotes at both ends",
        b"name,code\r\n\"\"\"a\"\"\",AB\r\n",
        &[("\"a\"", "AB")],
    ),
    (
        "two doubled quotes",
        b"name,code\r\n\"\"\"\"\"\",AB\r\n",
        &[("\"\"", "AB")],
    ),
    (
        "a name of spaces",
        b"name,code\r\n  ,AB\r\n",
        &[("  ", "AB")],
    ),
    (
        "spaces belong to the name",
        b"name,code\r\n a ,AB\r\na,AB\r\n",
        &[(" a ", "AB"), ("a", "AB")],
    ),
    (
        "first and last bytes of a name",
        b"name,code\r\n ~,AB\r\n",
        &[(" ~", "AB")],
    ),
    (
        "first and last bands",
        b"name,code\r\na,AZ\r\n",
        &[("a", "AZ")],
    ),
    (
        "equal codes",
        b"name,code\r\na,AB\r\nb,AB\r\n",
        &[("a", "AB"), ("b", "AB")],
    ),
    (
        "names differ by case",
        b"name,code\r\na,AB\r\nA,AB\r\n",
        &[("a", "AB"), ("A", "AB")],
    ),
    // Only earlier rows after the heading take a name.
    (
        "the heading's name",
        b"name,code\r\nname,AB\r\n",
        &[("name", "AB")],
    ),
];

#[test]
fn right_files() {
    for (what, file, orders) in RIGHT {
        assert_eq!(read(file), List::named(orders), "{what}");
    }
}

#[test]
fn the_counts_are_those_of_codes_bands_and_name_bytes() {
    let read = Lent::roomy()
        .read(b"name,code\r\nPump,AABB\r\nFan,AAACD\r\n")
        .unwrap();
    assert_eq!((read.codes, read.bands, read.names), (2, 9, 7));
}

#[test]
fn names_of_1_and_24_bytes() {
    // 24 quotes, which take 50 bytes in the file, are measured as 24.
    for name in ["x".to_string(), "y".repeat(24), "\"".repeat(24)] {
        let quoted = format!("\"{}\",AB", name.replace('"', "\"\""));
        assert_eq!(read(&file(&[&quoted])), List::named(&[(&name[..], "AB")]));
    }
}

#[test]
fn codes_of_1_and_64_bands() {
    for code in ["Q".to_string(), "Q".repeat(64)] {
        let plain = format!("a,{code}");
        let quoted = format!("a,\"{code}\"");
        for row in [plain, quoted] {
            assert_eq!(read(&file(&[&row])), List::named(&[("a", &code[..])]));
        }
    }
}

#[test]
fn every_printed_byte_in_a_name() {
    for byte in 0x20..=0x7Eu8 {
        let mut file = b"name,code\r\n\"".to_vec();
        file.push(byte);
        // A quote alone needs its double.
        file.extend((byte == b'"').then_some(b'"'));
        file.extend(b"\",AB\r\n");
        assert_eq!(read(&file).names, [byte]);
    }
}

#[test]
fn every_band_in_a_code() {
    let alphabet = "ABCDEFGHIJKLMNOPQRSTUVWXYZ";
    let list = read(&file(&[&format!("a,{alphabet}")]));
    assert_eq!(list.bands, alphabet.as_bytes());
}

#[test]
fn one_cr_lf_at_the_very_end_is_no_part_of_a_ribbon() {
    for (file, ribbon) in [
        ("AB\r\n", "AB"),
        ("AB", "AB"),
        ("\r\n", ""),
        ("", ""),
        ("AB\r\n\r\n", "AB\r\n"),
        ("\r\nAB", "\r\nAB"),
        ("AB\n", "AB\n"),
        ("AB\r", "AB\r"),
        ("AB\n\r", "AB\n\r"),
    ] {
        assert_eq!(ribbon_of(file.as_bytes()), ribbon.as_bytes(), "{file:?}");
    }
}

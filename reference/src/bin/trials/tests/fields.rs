//! The fields of a line.

use crate::fields::{bytes, decimal, numbers, rooms};

#[test]
fn fields_of_bytes() {
    let fields: [(&str, &[u8]); 14] = [
        ("-", b""),
        ("A", b"A"),
        ("--", b"--"),
        ("{1}-", b"-"),
        ("\\2D", b"-"),
        ("name,code\\r\\nPump,AABB", b"name,code\r\nPump,AABB"),
        ("a\\sb", b"a b"),
        ("\\00\\7F\\80\\FF", b"\x00\x7F\x80\xFF"),
        ("\\7B\\5C}:x=#", b"{\\}:x=#"),
        ("{3}A", b"AAA"),
        ("{2}\\r\\n", b"\r\r\n"),
        ("x{2}\\s{3}\\4142", b"x  AAA42"),
        ("{0}A", b""),
        ("A{12}B", b"ABBBBBBBBBBBB"),
    ];
    for (field, expected) in fields {
        assert_eq!(bytes(field).as_deref(), Ok(expected), "{field}");
    }
    assert_eq!(bytes("{17408}A").unwrap(), [b'A'; 17_408]);
    assert_eq!(bytes(&"A".repeat(17_408)).unwrap(), [b'A'; 17_408]);
}

#[test]
fn wrong_fields_of_bytes() {
    for field in [
        "",
        "\\",
        "\\A",
        "\\x",
        "\\4",
        "\\a0",
        "\\0a",
        "\\+1",
        "\\R",
        "\\\\",
        "{",
        "{}A",
        "{3A",
        "{3}",
        "{+3}A",
        "{-3}A",
        "{ 3}A",
        "{A}A",
        "{2}{3}A",
        "{3}\\",
        "A{",
        "{17409}A",
        "{17408}AA",
        "{99999999999}A",
    ] {
        assert!(bytes(field).is_err(), "{field}");
    }
    assert!(bytes(&"A".repeat(17_409)).is_err());
}

#[test]
fn fields_of_numbers() {
    let fields: [(&str, &[u16]); 7] = [
        ("-", &[]),
        ("0", &[0]),
        ("65535", &[65_535]),
        ("2,2", &[2, 2]),
        ("3x4", &[4, 4, 4]),
        ("1,2x64,0", &[1, 64, 64, 0]),
        ("0x7", &[]),
    ];
    for (field, expected) in fields {
        assert_eq!(numbers(field).as_deref(), Ok(expected), "{field}");
    }
    assert_eq!(numbers("128x64").unwrap(), [64; 128]);
    assert_eq!(numbers("159x1,1").unwrap(), [1; 160]);
    assert_eq!(rooms("4x0"), Ok([0; 4]));
    assert_eq!(rooms("8192,128,17181"), Ok([8_192, 128, 17_181]));
    assert_eq!(decimal("4294967295"), Ok(4_294_967_295));
}

#[test]
fn wrong_fields_of_numbers() {
    for field in [
        "",
        ",",
        "1,",
        ",1",
        "1,,2",
        "65536",
        "+1",
        "-1",
        "A",
        "1x",
        "x1",
        "1x2x3",
        "161x1",
        "160x1,1",
        "1 2",
        "4294967296x1",
    ] {
        assert!(numbers(field).is_err(), "{field}");
    }
    assert!(rooms::<3>("1,2").is_err() && rooms::<3>("1,2,3,4").is_err());
    assert!(decimal("4294967296").is_err() && decimal("").is_err());
}

//! Document 01, "The sheet".

use crate::common::*;

/// The sheet of a list after its heading row.
fn rows(orders: &[(&str, &str)]) -> String {
    let sheet = String::from_utf8(List::named(orders).sheet_bytes()).unwrap();
    let rows = sheet.strip_prefix("name,way,start,bands,places\r\n");
    rows.expect("the heading row comes first").to_string()
}

#[test]
fn the_worked_example() {
    let orders = [("Pump", "AABB"), ("Fan", "AAAC"), ("Lamp", "ABBB")];
    let sheet = List::named(&orders).sheet_bytes();
    let expected = b"name,way,start,bands,places\r\n\
        Pump,given,2,AABB,1\r\n\
        Fan,turned,0,CAAA,1\r\n\
        Lamp,given,3,ABBB,1\r\n";
    assert_eq!(sheet, expected);
    let returned = List::named(&orders).sheet(&mut [0; 200]).unwrap();
    assert_eq!((returned.length, returned.saved), (expected.len(), 5));
}

#[test]
fn a_name_is_quoted_only_if_it_holds_a_comma_or_a_quote() {
    for (name, field) in [
        ("Pump", "Pump"),
        (" two words ", " two words "),
        ("'single'", "'single'"),
        ("a;b", "a;b"),
        ("~!#$%&()*+-./:<=>?@[]", "~!#$%&()*+-./:<=>?@[]"),
        ("a,b", "\"a,b\""),
        (",", "\",\""),
        ("\"", "\"\"\"\""),
        ("a\"b", "\"a\"\"b\""),
        ("\"a\"", "\"\"\"a\"\"\""),
        ("\"\"", "\"\"\"\"\"\""),
        ("5\", big", "\"5\"\", big\""),
    ] {
        assert_eq!(rows(&[(name, "AB")]), format!("{field},given,0,AB,1\r\n"));
    }
}

#[test]
fn dropped_codes_have_rows_too() {
    // The ribbon is ABC: BA is turned at 0, and B looks alike from both ends.
    let sheet = rows(&[("a", "BA"), ("b", "ABC"), ("c", "B"), ("d", "ABC")]);
    let expected = "a,turned,0,AB,1\r\nb,given,0,ABC,1\r\nc,either,1,B,1\r\nd,given,0,ABC,1\r\n";
    assert_eq!(sheet, expected);
}

#[test]
fn a_start_of_several_digits() {
    // The codes share no band, so MN follows the 12 bands A to L.
    let sheet = rows(&[("a", "ABCDEFGHIJKL"), ("b", "MN")]);
    assert_eq!(sheet, "a,given,0,ABCDEFGHIJKL,1\r\nb,given,12,MN,1\r\n");
}

#[test]
fn one_row_for_each_of_128_codes() {
    let names: Vec<String> = (0..128).map(|i| format!("N{i}")).collect();
    let orders: Vec<(&str, &str)> = names.iter().map(|name| (&name[..], "AB")).collect();
    let expected: Vec<String> = names
        .iter()
        .map(|name| format!("{name},given,0,AB,1\r\n"))
        .collect();
    assert_eq!(rows(&orders), expected.concat());
}

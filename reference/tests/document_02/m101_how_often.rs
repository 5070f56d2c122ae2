//! M-101: finding a place takes a first start, and the sheet says at how many
//! starts a code stands.

use crate::chance::Chance;
use crate::common::*;
use crate::starts::{all_ways, from, sheet, turned, HEADING};
use reference::Way::{Either, Given, Turned};
use reference::{how_often, sheet_output, Way};

fn count(row: &str, code: &str) -> usize {
    how_often(row.as_bytes(), code.as_bytes())
}

#[test]
fn the_smallest_place_from_a_first_start_on() {
    // AB stands as given at 1 and 6, and turned at 4.
    let row = "CABCBAABC";
    for (first, expected) in [
        // From the row's beginning, and exactly at a place.
        (0, Some(Given(1))),
        (1, Some(Given(1))),
        // One past it, and between two.
        (2, Some(Turned(4))),
        (3, Some(Turned(4))),
        (4, Some(Turned(4))),
        (5, Some(Given(6))),
        (6, Some(Given(6))),
        // One past the last place, and at the last start that has a band.
        (7, None),
        (8, None),
    ] {
        assert_eq!(from(row, "AB", first), expected, "from {first}");
    }
}

#[test]
fn a_place_that_begins_before_the_first_start_is_none() {
    // From 1 on there are BC and CD, but ABC and DCB have begun before.
    assert_eq!(from("ABCD", "ABC", 1), None);
    assert_eq!(from("ABCD", "DCB", 1), Some(Turned(1)));
    assert_eq!(from("ABCD", "DCB", 2), None);
    // Occurrences that overlap are places each.
    assert_eq!(from("AAAA", "AA", 1), Some(Either(1)));
    assert_eq!(from("ABABA", "ABA", 1), Some(Either(2)));
    assert_eq!(from("ABABA", "AB", 1), Some(Turned(1)));
}

#[test]
fn at_the_last_start_at_the_rows_end_and_behind_it() {
    for (code, last) in [("C", 3), ("BC", 2), ("CB", 2)] {
        let way = from("AABC", code, last);
        assert_eq!(way.map(Way::start), Some(last), "{code}");
        assert_eq!(from("AABC", code, last + 1), None, "{code}");
    }
    // The row has bands 0 to 3: 4 is its end.
    for first in [4, 5, 6, 100, 16_385, u32::MAX] {
        assert_eq!(from("AAAA", "A", first), None, "from {first}");
        assert_eq!(from("", "A", first), None, "from {first}");
    }
    assert_eq!(from("", "A", 0), None);
    assert_eq!(from("AB", "ABC", 0), None);
    // The longest ribbon there is.
    let row = "A".repeat(16_384);
    assert_eq!(from(&row, "A", 16_383), Some(Either(16_383)));
    assert_eq!(from(&row, "A", 16_384), None);
    assert_eq!(from(&row, "AA", 16_382), Some(Either(16_382)));
    assert_eq!(from(&row, "AA", 16_383), None);
}

#[test]
fn from_a_first_start_on_where_both_ways_stand() {
    for code in ["A", "AA", "ABA", "ABBA"] {
        let row = format!("{code}XY{code}");
        let second = code.len() as u32 + 2;
        assert_eq!(from(&row, code, 0), Some(Either(0)), "{code}");
        assert_eq!(from(&row, code, 1), Some(Either(second)), "{code}");
        assert_eq!(from(&row, code, second + 1), None, "{code}");
    }
}

#[test]
fn other_users_pass_0() {
    // Dropping finds BA, turned, at 0 of ABC, and BC at 1.
    assert_eq!(laid(&["BA", "ABC"]), ("ABC".to_string(), 0));
    assert_eq!(laid(&["BC", "ABC"]), ("ABC".to_string(), 0));
    // The check finds the smallest start of all.
    assert_eq!(List::of(&["AB"]).places("ABXAB")[0].way, Given(0));
    assert_eq!(List::of(&["AB"]).places("BAXAB")[0].way, Turned(0));
}

#[test]
fn the_number_of_starts() {
    for (row, code, expected) in [
        ("ABC", "AB", 1),
        ("ABC", "D", 0),
        ("AB", "ABC", 0),
        ("", "A", 0),
        // Occurrences that overlap count each.
        ("AAAA", "AA", 3),
        ("AAAA", "A", 4),
        ("AAAA", "AAAA", 1),
        ("ABABA", "ABA", 2),
        // Turned ones count, alone, with others, overlapping them.
        ("CBA", "ABC", 1),
        ("ABXBA", "AB", 2),
        ("BAXBA", "AB", 2),
        ("ABA", "AB", 2),
        ("ABABA", "AB", 4),
        ("ABBA", "AB", 2),
        // At both ends of the row.
        ("ABXXAB", "AB", 2),
        ("ABXXBA", "AB", 2),
        ("AXXA", "A", 2),
        // The bands are there, but not as neighbours.
        ("AXBXA", "AB", 0),
    ] {
        assert_eq!(count(row, code), expected, "{code} on {row}");
        assert_eq!(count(row, &turned(code)), expected, "{code} turned");
        assert_eq!(count(&turned(row), code), expected, "{row} turned");
    }
}

#[test]
fn each_start_counts_once() {
    // Both ways stand at each of these starts.
    for (row, code, expected) in [
        ("ABA", "ABA", 1),
        ("ABAXABA", "ABA", 2),
        ("ABABA", "ABA", 2),
        ("ABBAB", "ABBA", 1),
        ("AAAA", "AAA", 2),
        ("A", "A", 1),
    ] {
        assert_eq!(count(row, code), expected, "{code} on {row}");
    }
}

#[test]
fn pump_fan_and_lamp_show_1() {
    let list = b"name,code\r\nPump,AABB\r\nFan,AAAC\r\nLamp,ABBB\r\n";
    let expected = b"name,way,start,bands,places\r\n\
        Pump,given,2,AABB,1\r\n\
        Fan,turned,0,CAAA,1\r\n\
        Lamp,given,3,ABBB,1\r\n";
    assert_eq!(sheet_output(list), expected);
}

#[test]
fn places_is_the_last_field() {
    // AAAA holds AA at 0, 1 and 2, and A at all four.
    let rows = sheet(&["AAAA", "AA", "A"]);
    let expected = ["N0,either,0,AAAA,1", "N1,either,0,AA,3", "N2,either,0,A,4"];
    assert_eq!(rows[0], HEADING);
    assert_eq!(rows[1..], expected);
}

#[test]
fn counted_on_the_whole_ribbon() {
    // BBBABBC: ABB stands turned at 1 and as given at 3.
    let rows = sheet(&["ABB", "BBC", "BBB"]);
    let expected = ["N0,turned,1,BBA,2", "N1,given,4,BBC,1", "N2,either,0,BBB,1"];
    assert_eq!(rows[1..], expected);
    // CAAABBB: AA stands at 1 and 2, BB at 4 and 5.
    let rows = sheet(&["AABB", "AAAC", "ABBB", "AA", "BB", "B"]);
    let expected = ["N3,either,1,AA,2", "N4,either,4,BB,2", "N5,either,4,B,3"];
    assert_eq!(rows[4..], expected);
    // ABC: what two codes share counts once.
    let rows = sheet(&["AB", "BC", "B"]);
    let expected = ["N0,given,0,AB,1", "N1,given,1,BC,1", "N2,either,1,B,1"];
    assert_eq!(rows[1..], expected);
}

#[test]
fn dropped_codes_are_counted_each() {
    // ABAB holds AB at 0 and 2 and BA at 1; the last is BA, turned at 0.
    let rows = sheet(&["AB", "ABAB", "AB", "BA"]);
    let expected = [
        "N0,given,0,AB,3",
        "N1,given,0,ABAB,1",
        "N2,given,0,AB,3",
        "N3,turned,0,AB,3",
    ];
    assert_eq!(rows[1..], expected);
}

#[test]
fn numbers_of_two_three_and_four_digits() {
    let tens = "A".repeat(10);
    let rows = sheet(&[&tens, "AA", "A"]);
    assert_eq!(rows[2..], ["N1,either,0,AA,9", "N2,either,0,A,10"]);
    // X, 50 A, Y, and Z, 50 A, W share nothing.
    let fifty = "A".repeat(50);
    let codes = [format!("X{fifty}Y"), format!("Z{fifty}W")];
    let rows = sheet(&[&codes[0], &codes[1], "A", "AA"]);
    assert_eq!(rows[3..], ["N2,either,1,A,100", "N3,either,1,AA,98"]);
    // Each of 17 codes, B 62 A C and so on, shares a band with the next.
    let letters: Vec<char> = ('B'..='S').collect();
    let many = "A".repeat(62);
    let code = |ends: &[char]| format!("{}{many}{}", ends[0], ends[1]);
    let codes: Vec<String> = letters.windows(2).map(code).collect();
    let mut codes: Vec<&str> = codes.iter().map(String::as_str).collect();
    codes.extend(["A", "AA"]);
    // 17 times 62, and 17 times 61.
    let rows = sheet(&codes);
    assert_eq!(rows[18..], ["N17,either,1,A,1054", "N18,either,1,AA,1037"]);
}

#[test]
fn the_room_for_a_number_is_counted() {
    // Ten bands and the heading of 29: rows of 26 and 18 bytes.
    let tens = "A".repeat(10);
    let list = List::of(&[&tens, "A"]);
    let wrote = list.sheet(&mut marked_bytes(73)).unwrap();
    assert_eq!(wrote.length, 73);
    let mut out = marked_bytes(72);
    assert_eq!(list.sheet(&mut out), Err(refusal(13, 0)));
    assert_eq!(out, marked_bytes(72));
}

/// A small row and a code, over few bands.
fn row_and_code(chance: &mut Chance) -> (String, String) {
    let bands = chance.one_of(&["A", "AB", "AB", "ABC"]);
    let code = chance.code(bands, 4);
    let row = match chance.below(8) {
        0 => String::new(),
        1 => [&code[..], &turned(&code)].concat(),
        2 => code.repeat(4),
        _ => chance.code(bands, 20),
    };
    (row, code)
}

#[test]
fn the_smallest_from_each_first_start_on() {
    let mut chance = Chance(0x5EED_0101);
    let (mut some, mut none) = (0, 0);
    for _ in 0..5_000 {
        let (row, code) = row_and_code(&mut chance);
        let ways = all_ways(&row, &code);
        for first in 0..row.len() as u32 + 3 {
            let expected = ways.iter().copied().find(|way| way.start() >= first);
            assert_eq!(from(&row, &code, first), expected, "{code} on {row}");
            some += usize::from(expected.is_some());
            none += usize::from(expected.is_none());
        }
    }
    assert!(some > 10_000 && none > 10_000, "{some} {none}");
}

#[test]
fn going_from_place_to_place_counts_as_many() {
    let mut chance = Chance(0x5EED_0102);
    let (mut several, mut turned_ones) = (0, 0);
    for _ in 0..5_000 {
        let (row, code) = row_and_code(&mut chance);
        let (mut ways, mut first) = (Vec::new(), 0);
        while let Some(way) = from(&row, &code, first) {
            assert!(way.start() >= first, "{code} on {row}");
            ways.push(way);
            first = way.start() + 1;
        }
        assert_eq!(ways, all_ways(&row, &code), "{code} on {row}");
        assert_eq!(count(&row, &code), ways.len(), "{code} on {row}");
        several += usize::from(ways.len() > 1);
        turned_ones += usize::from(ways.iter().any(|way| matches!(way, Turned(_))));
    }
    assert!(
        several > 1_000 && turned_ones > 500,
        "{several} {turned_ones}"
    );
}

#[test]
fn sheets_have_the_number_of_starts() {
    let mut chance = Chance(0x5EED_0103);
    let mut several = 0;
    for _ in 0..3_000 {
        let codes = chance.codes(6);
        let codes: Vec<&str> = codes.iter().map(String::as_str).collect();
        let (ribbon, _) = laid(&codes);
        for (row, code) in sheet(&codes)[1..].iter().zip(&codes) {
            let ways = all_ways(&ribbon, code);
            let (_, places) = row.rsplit_once(',').unwrap();
            assert_eq!(places, ways.len().to_string(), "{codes:?}");
            assert_eq!(row.split(',').count(), 5, "{row}");
            several += usize::from(ways.len() > 1);
        }
    }
    assert!(several > 1_000, "{several}");
}

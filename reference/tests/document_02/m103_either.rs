//! M-103: a code equal to its turned form has the way either, in the record
//! and on the sheet; other codes have the way given or turned.

use crate::chance::Chance;
use crate::common::*;
use crate::starts::{all_ways, from, looks_alike, sheet, turned, HEADING};
use reference::Way::{self, Either, Given, Turned};
use reference::{check_output, how_often, sheet_output, Checked, Place, Sheet};

/// Codes that equal their turned form, of odd and of even length.
const ALIKE: [&str; 9] = [
    "A", "AA", "AAA", "ABA", "ABBA", "ABCBA", "AABAA", "ABAABA", "ABABABA",
];

/// Codes that differ from it: at their ends, at their ends alone, between equal
/// ends, in the middle alone; and such as are made of codes that look alike.
const DIFFERING: [&str; 12] = [
    "AB", "AAB", "ABB", "ABAB", "ABC", "ABBB", "ABCAA", "ABCA", "AABABA", "ABBACA", "ABACCA",
    "AABBAB",
];

/// A code that looks alike from both ends, of these bands and X, twice.
fn of_halves(half: &str) -> String {
    format!("{half}XX{}", turned(half))
}

fn record(code: u32, way: Way) -> Place {
    Place { code, way }
}

/// The way in the place record of one code on a supplied ribbon.
fn on(ribbon: &str, code: &str) -> Way {
    List::of(&[code]).places(ribbon)[0].way
}

#[test]
fn a_code_equal_to_its_turned_form_has_the_way_either() {
    for code in ALIKE {
        assert_eq!(turned(code), code);
        assert_eq!(from(code, code, 0), Some(Either(0)), "{code}");
        assert_eq!(on(&format!("XY{code}"), code), Either(2), "{code}");
        assert_eq!(on(&format!("{code}XY"), code), Either(0), "{code}");
        let row = format!("N0,either,0,{code},1");
        assert_eq!(sheet(&[code]), [HEADING, &row]);
    }
}

#[test]
fn codes_that_differ_from_it_have_the_way_given_or_turned() {
    for code in DIFFERING {
        let back = turned(code);
        assert_ne!(back, code);
        for (row, ways) in [
            (code.to_string(), [Given(0), Turned(0)]),
            (back.clone(), [Turned(0), Given(0)]),
            (format!("XY{code}"), [Given(2), Turned(2)]),
            (format!("XY{back}"), [Turned(2), Given(2)]),
            // Both ways stand there, at different starts.
            (format!("XY{code}Z{back}"), [Given(2), Turned(2)]),
            (format!("XY{back}Z{code}"), [Turned(2), Given(2)]),
        ] {
            assert_eq!(from(&row, code, 0), Some(ways[0]), "{code} on {row}");
            assert_eq!(from(&row, &back, 0), Some(ways[1]), "{back} on {row}");
            assert_eq!(on(&row, code), ways[0], "{code} on {row}");
            assert_eq!(on(&row, &back), ways[1], "{back} on {row}");
        }
        let row = format!("N0,given,0,{code},1");
        assert_eq!(sheet(&[code]), [HEADING, &row]);
    }
}

#[test]
fn of_63_and_64_bands() {
    let half = "ABCDEFGHIJKLMNOPQRSTUVWZYABCDEF";
    let even = of_halves(half);
    let odd = even.replace("XX", "X");
    assert_eq!((even.len(), odd.len()), (64, 63));
    let same = "A".repeat(64);
    for code in [&even, &odd, &same] {
        assert_eq!(on(code, code), Either(0), "{code}");
        assert_eq!(sheet(&[code])[1], format!("N0,either,0,{code},1"));
    }
    // One band of a pair is changed: the middle one, that beside the ends, an end.
    let changed = |at: usize| {
        let mut code = even.clone();
        code.replace_range(at..at + 1, "Z");
        code
    };
    for code in [0, 1, 30, 31, 32, 33, 62, 63].map(changed) {
        assert_eq!(on(&code, &code), Given(0), "{code}");
        assert_eq!(on(&turned(&code), &code), Turned(0), "{code}");
        assert_eq!(sheet(&[&code])[1], format!("N0,given,0,{code},1"));
    }
    // An odd code's middle band is its own pair.
    assert_eq!(
        on(&odd.replace('X', "Y"), &odd.replace('X', "Y")),
        Either(0)
    );
}

#[test]
fn both_ways_of_a_code_that_differs_stand_at_starts_of_their_own() {
    for (row, code, ways) in [
        ("ABBA", "AB", &[Given(0), Turned(2)][..]),
        ("ABBA", "BA", &[Turned(0), Given(2)]),
        ("BAAB", "AB", &[Turned(0), Given(2)]),
        ("ABA", "AB", &[Given(0), Turned(1)]),
        ("AABAA", "AAB", &[Given(0), Turned(2)]),
        ("BAAB", "AAB", &[Turned(0), Given(1)]),
        ("ABABA", "ABAB", &[Given(0), Turned(1)]),
        ("BABAB", "ABAB", &[Turned(0), Given(1)]),
        // Beside it a code that looks alike stands at each of its starts as
        // either.
        ("ABBA", "ABBA", &[Either(0)]),
        ("ABBA", "BB", &[Either(1)]),
        ("ABBA", "A", &[Either(0), Either(3)]),
        ("ABABA", "ABA", &[Either(0), Either(2)]),
        ("ABABA", "BAB", &[Either(1)]),
        ("AAAA", "AA", &[Either(0), Either(1), Either(2)]),
    ] {
        assert_eq!(all_ways(row, code), ways, "{code} on {row}");
        assert_eq!(on(row, code), ways[0], "{code} on {row}");
        for first in 0..=row.len() as u32 {
            let expected = ways.iter().find(|way| way.start() >= first);
            let way = from(row, code, first);
            assert_eq!(way.as_ref(), expected, "{code} on {row} from {first}");
        }
    }
}

#[test]
fn in_the_records_of_a_supplied_ribbon() {
    // ABA stands at 1, 3 and 7, B at 2, 4 and 8, BAB at 2, and CAB turned at 4
    // and as given at 6. The codes of one and two bands are dropped.
    let list = List::of(&["ABA", "B", "AB", "BA", "CAB", "BAB", "B"]);
    let expected = [
        record(0, Either(1)),
        record(1, Either(2)),
        record(2, Given(1)),
        record(3, Turned(1)),
        record(4, Turned(4)),
        record(5, Either(2)),
        record(6, Either(2)),
    ];
    assert_eq!(list.places("XABABACABA"), expected);
    // The same turned: ABA stands at 0, 4 and 6, BAB at 5, CAB turned at 1.
    let expected = [
        record(0, Either(0)),
        record(1, Either(1)),
        record(2, Given(0)),
        record(3, Turned(0)),
        record(4, Turned(1)),
        record(5, Either(5)),
        record(6, Either(1)),
    ];
    assert_eq!(list.places("ABACABABAX"), expected);
}

#[test]
fn on_the_sheet_in_full() {
    // ABACA, as document 01's table has it.
    let list = b"name,code\r\nP,ABA\r\nQ,ACA\r\nR,BA\r\n";
    let expected = b"name,way,start,bands,places\r\n\
        P,either,0,ABA,1\r\n\
        Q,either,2,ACA,1\r\n\
        R,turned,0,AB,2\r\n";
    assert_eq!(sheet_output(list), expected);
    // A, A: the second is dropped.
    let rows = sheet(&["A", "A"]);
    assert_eq!(rows[1..], ["N0,either,0,A,1", "N1,either,0,A,1"]);
    // AB, BA are each other's turned form, and neither is its own.
    let rows = sheet(&["AB", "BA"]);
    assert_eq!(rows[1..], ["N0,given,0,AB,1", "N1,turned,0,AB,1"]);
    // ABC, B.
    let rows = sheet(&["ABC", "B"]);
    assert_eq!(rows[1..], ["N0,given,0,ABC,1", "N1,either,1,B,1"]);
    // ABBBC, and BBBABBC, on which BBA stands before ABB.
    let rows = sheet(&["ABB", "BBB", "BBC"]);
    let expected = ["N0,given,0,ABB,1", "N1,either,1,BBB,1", "N2,given,2,BBC,1"];
    assert_eq!(rows[1..], expected);
    let rows = sheet(&["ABB", "BBC", "BBB"]);
    let expected = ["N0,turned,1,BBA,2", "N1,given,4,BBC,1", "N2,either,0,BBB,1"];
    assert_eq!(rows[1..], expected);
}

#[test]
fn dropped_codes_that_look_alike_stand_inside_others() {
    // ABBA holds BB at 1, A at 0 and 3, and AB at 0 and turned at 2.
    let rows = sheet(&["BB", "ABBA", "A", "AB", "BBA", "ABBA"]);
    let expected = [
        "N0,either,1,BB,1",
        "N1,either,0,ABBA,1",
        "N2,either,0,A,2",
        "N3,given,0,AB,2",
        "N4,turned,0,ABB,2",
        "N5,either,0,ABBA,1",
    ];
    assert_eq!(rows[1..], expected);
    // ABCAA begins and ends alike, and holds AA at 3 and A thrice.
    let rows = sheet(&["ABCAA", "AA", "A", "AACBA"]);
    let expected = [
        "N0,given,0,ABCAA,1",
        "N1,either,3,AA,1",
        "N2,either,0,A,3",
        "N3,turned,0,ABCAA,1",
    ];
    assert_eq!(rows[1..], expected);
}

#[test]
fn the_checks_answers_stay() {
    for (codes, row, expected) in [
        (&["ABA"][..], "ABA", Checked::Held(0)),
        (&["ABA"], "XABAXABA", Checked::Held(5)),
        // ABACA has 5 bands.
        (&["ABA", "ACA"], "ACABA", Checked::Held(0)),
        (&["ABA", "ACA"], "ABAACA", Checked::Held(1)),
        // BBBABBC has 7.
        (&["ABB", "BBC", "BBB"], "ABBBC", Checked::Held(-2)),
        (&["ABA"], "AB", Checked::Missing(0)),
        (&["ABA"], "ABBA", Checked::Missing(0)),
        (&["ABA"], "", Checked::Missing(0)),
        (&["A", "ABA", "AA"], "ABA", Checked::Missing(2)),
        (&["AA", "BB", "CC"], "AACC", Checked::Missing(1)),
    ] {
        let mut places = marked_places(5);
        let checked = List::of(codes).check(row.as_bytes(), &mut places);
        assert_eq!(checked, Ok(expected), "{codes:?} on {row}");
        let written = match expected {
            Checked::Held(_) => codes.len(),
            Checked::Missing(_) => 0,
        };
        // Records behind those that are due stay.
        assert_eq!(places[written..], marked_places(5)[written..], "{row}");
    }
    let list = b"name,code\r\nP,ABA\r\nQ,ACA\r\n";
    assert_eq!(check_output(list, b"ACABA\r\n"), b"held,0\r\n");
    assert_eq!(check_output(list, b"XACABA"), b"held,1\r\n");
    assert_eq!(check_output(list, b"ABACAB"), b"held,1\r\n");
    assert_eq!(check_output(list, b"ABAC\r\n"), b"missing,1\r\n");
}

/// A sheet has this length: a byte less of room is refused and left untouched.
fn assert_length(list: &List, length: usize, saved: usize) {
    let wrote = list.sheet(&mut marked_bytes(length));
    assert_eq!(wrote, Ok(Sheet { length, saved }));
    let mut out = marked_bytes(length - 1);
    assert_eq!(list.sheet(&mut out), Err(refusal(13, 0)));
    assert_eq!(out, marked_bytes(length - 1));
}

#[test]
fn the_room_for_either_is_counted() {
    // The heading has 29 bytes with CR LF, N0,either,0,ABA,1 has 19.
    assert_length(&List::of(&["ABA"]), 29 + 19, 0);
    // N0,given,0,ABB,1 has 18.
    assert_length(&List::of(&["ABB"]), 29 + 18, 0);
    // N0,either,0,A,1 has 17.
    assert_length(&List::of(&["A", "A"]), 29 + 17 + 17, 0);
    assert_length(&List::of(&["ABA", "ACA"]), 29 + 19 + 19, 1);
    // N0,given,0,AB,1 and N1,turned,0,AB,1 have 17 and 18.
    assert_length(&List::of(&["AB", "BA"]), 29 + 17 + 18, 0);
    // N0,turned,1,BBA,2 and N2,either,0,BBB,1 have 19, N1,given,4,BBC,1 18.
    assert_length(&List::of(&["ABB", "BBC", "BBB"]), 29 + 19 + 18 + 19, 2);
}

/// 128 codes of 64 bands that look alike. Each begins and ends in A and has no
/// other, so that any two share one band; the third band is one of 8 and the
/// second one of 16.
fn longest_codes() -> Vec<String> {
    let letter = |i: usize| char::from(b'B' + i as u8);
    let code = |i: usize| {
        let half = format!("A{}{}{}", letter(i / 8), letter(i % 8), "Z".repeat(29));
        half.clone() + &turned(&half)
    };
    (0..128).map(code).collect()
}

/// The longest 128 names on a sheet: 24 quotes, and 23 with another byte among
/// them, behind up to 23 quotes and one of 6.
fn longest_names() -> Vec<String> {
    let name = |i: usize| {
        let quotes = "\"".repeat(23);
        let (before, behind) = quotes.split_at(i % 24);
        format!("{before}{}{behind}", char::from(b'a' + (i / 24) as u8))
    };
    let mut names: Vec<String> = (0..127).map(name).collect();
    names.push("\"".repeat(24));
    names
}

#[test]
fn the_longest_sheet_still_has_room() {
    let (names, codes) = (longest_names(), longest_codes());
    let orders: Vec<(&str, &str)> = (names.iter().zip(&codes))
        .map(|(name, code)| (&name[..], &code[..]))
        .collect();
    let list = List::named(&orders);
    // Codes begin at 0, 63, 126 and so on to 8,001: one digit, two, 14 times
    // three and 112 times four.
    let (ribbon, saved) = list.laid();
    assert_eq!((ribbon.len(), saved), (127 * 63 + 64, 127));
    let starts = 1 + 2 + 14 * 3 + 112 * 4;
    // Quoted, and all quotes doubled.
    let names_quoted = 127 * (2 * 23 + 1 + 2) + 2 * 24 + 2;
    // Four commas, a way of six letters, 64 bands, one place and CR LF.
    let rest = 128 * (4 + 6 + 64 + 1 + 2);
    let length = 29 + names_quoted + starts + rest;
    assert_eq!(length, 16_651);
    assert_length(&list, length, 127);
    // No row has over 134 bytes, and so no sheet more than this.
    assert_eq!(29 + 128 * 134, 17_181);
    let mut out = marked_bytes(17_181);
    assert_eq!(list.sheet(&mut out).unwrap().length, length);
    assert_eq!(out[length..], marked_bytes(17_181)[length..]);
    let rows = String::from_utf8(out[..length].to_vec()).unwrap();
    assert_eq!(rows.matches(",either,").count(), 128);
    assert!(rows.contains(&format!(",either,0,{},1\r\n", &ribbon[..64])));
    assert!(rows.contains(&format!(",either,8001,{},1\r\n", &ribbon[8_001..])));
    // The sheet program has room for it too.
    let quoted = |name: &str| format!("\"{}\"", name.replace('"', "\"\""));
    let rows: Vec<String> = (orders.iter())
        .map(|(name, code)| format!("{},{code}", quoted(name)))
        .collect();
    let rows: Vec<&str> = rows.iter().map(String::as_str).collect();
    assert_eq!(sheet_output(&file(&rows)), out[..length]);
}

/// Every word of one to so many bands from A and B.
fn words(longest: u32) -> Vec<String> {
    let band = |bits: u32, i: u32| if bits >> i & 1 == 0 { 'A' } else { 'B' };
    let word = |length: u32, bits: u32| (0..length).map(|i| band(bits, i)).collect();
    let of_length = |length| (0..1u32 << length).map(move |bits| word(length, bits));
    (1..=longest).flat_map(of_length).collect()
}

#[test]
fn every_small_code_on_every_small_row() {
    let (codes, rows) = (words(5), words(8));
    assert_eq!((codes.len(), rows.len()), (62, 510));
    // As many as there are first halves, with the middle: 2, 2, 4, 4 and 8.
    let alike = codes.iter().filter(|code| looks_alike(code)).count();
    assert_eq!(alike, 20);
    let mut seen = [0; 4];
    for (code, row) in codes.iter().flat_map(|c| rows.iter().map(move |r| (c, r))) {
        let way = from(row, code, 0);
        assert_eq!(way, all_ways(row, code).first().copied(), "{code} on {row}");
        seen[kind(way)] += 1;
    }
    assert!(seen.iter().all(|count| *count > 3_000), "{seen:?}");
}

/// 0 for given, 1 for turned, 2 for either, 3 for none.
fn kind(way: Option<Way>) -> usize {
    match way {
        Some(Given(_)) => 0,
        Some(Turned(_)) => 1,
        Some(Either(_)) => 2,
        None => 3,
    }
}

/// A code of up to six bands; every second looks alike, or nearly, where one
/// band is changed.
fn code(chance: &mut Chance) -> String {
    if chance.below(2) == 0 {
        return chance.code("ABC", 6);
    }
    let half = chance.code("AB", 3);
    // The last band of the first half may be the middle one.
    let back = turned(&half)[chance.below(2)..].to_string();
    let mut alike = half + &back;
    if chance.below(2) == 0 {
        let at = chance.below(alike.len());
        alike.replace_range(at..at + 1, chance.one_of(&["A", "B", "C"]));
    }
    alike
}

/// A row on which a code stands as given, or turned, or perhaps not.
fn row_for(chance: &mut Chance, code: &str) -> String {
    let [before, behind] = [5, 9].map(|most| chance.code("ABC", most));
    match chance.below(3) {
        0 => [before, code.to_string(), behind].concat(),
        1 => [before, turned(code), behind].concat(),
        _ => [before, behind].concat(),
    }
}

fn codes(chance: &mut Chance, most: usize) -> Vec<String> {
    let count = 1 + chance.below(most);
    (0..count).map(|_| code(chance)).collect()
}

#[test]
fn from_each_first_start_on() {
    let mut chance = Chance(0x5EED_0301);
    let (mut seen, mut both) = ([0; 4], 0);
    for _ in 0..5_000 {
        let code = code(&mut chance);
        let row = row_for(&mut chance, &code);
        let ways = all_ways(&row, &code);
        for first in 0..row.len() as u32 + 2 {
            let expected = ways.iter().copied().find(|way| way.start() >= first);
            assert_eq!(from(&row, &code, first), expected, "{code} on {row}");
            seen[kind(expected)] += 1;
        }
        // Both ways of a code that differs, each somewhere on the row.
        let stands = |wanted| ways.iter().any(|way| kind(Some(*way)) == wanted);
        both += usize::from(stands(0) && stands(1));
        assert!(!stands(2) || !stands(0) && !stands(1), "{code} on {row}");
    }
    assert!(seen.iter().all(|count| *count > 4_000), "{seen:?}");
    assert!(both > 500, "{both}");
}

#[test]
fn turning_a_code_exchanges_given_and_turned_alone() {
    let mut chance = Chance(0x5EED_0302);
    let mut seen = [0; 4];
    for _ in 0..5_000 {
        let code = code(&mut chance);
        let row = row_for(&mut chance, &code);
        let way = from(&row, &code, 0);
        let expected = way.map(|way| match way {
            Given(start) => Turned(start),
            Turned(start) => Given(start),
            Either(start) => Either(start),
        });
        assert_eq!(from(&row, &turned(&code), 0), expected, "{code} on {row}");
        seen[kind(way)] += 1;
    }
    assert!(seen.iter().all(|count| *count > 500), "{seen:?}");
}

#[test]
fn records_have_the_way_of_the_first_start() {
    let mut chance = Chance(0x5EED_0303);
    let (mut seen, mut missing) = ([0; 4], 0);
    for _ in 0..3_000 {
        let codes = codes(&mut chance, 6);
        let texts: Vec<&str> = codes.iter().map(String::as_str).collect();
        let list = List::of(&texts);
        let (computed, _) = list.laid();
        let row = match chance.below(3) {
            0 => chance.code("ABC", 12),
            1 => format!("{}{computed}BA", chance.code("ABC", 4)),
            _ => turned(&format!("{}{computed}BA", chance.code("ABC", 4))),
        };
        let ways: Vec<Option<Way>> = (codes.iter())
            .map(|code| all_ways(&row, code).first().copied())
            .collect();
        let mut places = marked_places(codes.len());
        let checked = list.check(row.as_bytes(), &mut places).unwrap();
        if let Some(code) = ways.iter().position(Option::is_none) {
            assert_eq!(checked, Checked::Missing(code as u32), "{codes:?}");
            assert_eq!(places, marked_places(codes.len()));
            missing += 1;
            continue;
        }
        let difference = row.len() as i32 - computed.len() as i32;
        assert_eq!(checked, Checked::Held(difference), "{codes:?} on {row}");
        for (place, (number, way)) in places.iter().zip((0..).zip(&ways)) {
            assert_eq!(*place, record(number, way.unwrap()), "{codes:?} on {row}");
            seen[kind(*way)] += 1;
        }
    }
    assert!(seen[..3].iter().all(|count| *count > 1_000), "{seen:?}");
    assert!(missing > 500, "{missing}");
}

#[test]
fn sheets_have_the_way_of_the_first_start() {
    let mut chance = Chance(0x5EED_0304);
    let mut seen = [0; 4];
    for _ in 0..3_000 {
        let codes = codes(&mut chance, 6);
        let texts: Vec<&str> = codes.iter().map(String::as_str).collect();
        let list = List::of(&texts);
        let (ribbon, saved) = list.laid();
        let mut expected = vec![HEADING.to_string()];
        for (i, code) in codes.iter().enumerate() {
            let ways = all_ways(&ribbon, code);
            assert_eq!(how_often(ribbon.as_bytes(), code.as_bytes()), ways.len());
            let (way, bands) = match ways[0] {
                Given(start) => (format!("given,{start}"), code.clone()),
                Turned(start) => (format!("turned,{start}"), turned(code)),
                Either(start) => (format!("either,{start}"), code.clone()),
            };
            expected.push(format!("N{i},{way},{bands},{}", ways.len()));
            seen[kind(Some(ways[0]))] += 1;
        }
        assert_eq!(sheet(&texts), expected, "{codes:?}");
        let length = expected.iter().map(|row| row.len() + 2).sum();
        assert_length(&list, length, saved);
    }
    assert!(seen[..3].iter().all(|count| *count > 1_000), "{seen:?}");
}

//! The generator makes what it says, and no fault goes unseen in the counts.

use crate::codes::{at_many_starts, few, looking_alike, turned, Code, MOST_CODES};
use crate::damage::DAMAGES;
use crate::faults::{numbers_for, put};
use crate::inputs::{input, Input};
use crate::kinds::{kind_at, Kind, SHARES};
use crate::lists::{kind_of, KINDS};
use crate::merges::{stands, stands_given};
use crate::namings::NAMINGS;
use crate::orders::{order_list, rows, written};
use crate::report::Tally;
use crate::supplied::{codes_for, ENDINGS, RIBBONS};
use crate::{limits, show};
use reference::drive::chance::Chance;
use reference::drive::files::{File, Room};
use reference::drive::outcomes::{
    outcome_of,
    Outcome::{self, HeldAbove, HeldAt, HeldBelow, Missing, RibbonRefused},
};
use reference::drive::programs::Program::{self, Check, Ribbon, Sheet};
use reference::drive::run::{Answer, Ending};
use reference::{Read, Refusal};
use std::collections::BTreeSet;

/// What the reader says of a file, as laying out the largest takes long.
fn read(file: &[u8]) -> Result<Read, Refusal> {
    let (mut bands, mut names) = ([0; 8_192], [0; 3_072]);
    let (mut lengths, mut sizes) = ([0; MOST_CODES], [0; MOST_CODES]);
    reference::read_orders(file, &mut bands, &mut lengths, &mut names, &mut sizes)
}

/// The number of a refusal, or 0.
fn number_for(file: &[u8]) -> u8 {
    read(file).map_or_else(|refusal| refusal.number, |_| 0)
}

/// All that a program is given.
fn given(program: Program, seed: u64, number: u64) -> Vec<Vec<u8>> {
    let input = input(program, seed, number);
    let files = input.files.iter().map(|file| file.bytes().to_vec());
    files.chain([input.bytes]).collect()
}

#[test]
fn an_input_follows_from_the_seed_and_its_number_alone() {
    for program in [Ribbon, Sheet, Check] {
        for number in 1..50 {
            let [one, again] = [(); 2].map(|_| given(program, 3, number));
            assert_eq!(one, again);
        }
        let alike = |number: &u64| given(program, 3, *number) == given(program, 4, *number);
        assert!((1..50).filter(alike).count() < 10);
    }
}

#[test]
fn all_programs_get_the_same_lists() {
    for number in 1..50 {
        let list = given(Ribbon, 3, number);
        assert_eq!(list, given(Sheet, 3, number));
        let check = input(Check, 3, number);
        if check.kind.ends_with("both files named") {
            assert_eq!(check.files[0].bytes(), list[0]);
        }
    }
}

#[test]
fn each_kind_of_list_has_its_share_of_a_thousand() {
    for kind in &KINDS {
        let of_it = |number: &u64| kind_of(*number).name == kind.name;
        assert_eq!((1..=1_000).filter(of_it).count() as u64, kind.share);
        assert!(kind.share < 20 || (1..=200).any(|number| of_it(&number)));
    }
}

#[test]
fn each_kind_has_its_share_of_the_places() {
    fn shares_of<Make>(kinds: &[Kind<Make>]) {
        let places: Vec<&str> = (0..SHARES)
            .map(|place| kind_at(kinds, place).name)
            .collect();
        let counts = kinds.iter().map(|kind| {
            let its_own = places.iter().filter(|name| **name == kind.name);
            assert_eq!(its_own.count() as u64, kind.share, "{}", kind.name);
            kind.share
        });
        assert_eq!(counts.sum::<u64>(), SHARES);
    }
    shares_of(&KINDS);
    shares_of(&RIBBONS);
    shares_of(&ENDINGS);
    shares_of(&NAMINGS);
}

#[test]
fn a_thousand_lists_have_every_number() {
    for seed in 1..=2 {
        let numbers = (1..=1_000).map(|number| number_for(&input(Ribbon, seed, number).bytes));
        let numbers: BTreeSet<u8> = numbers.collect();
        assert_eq!(numbers, (0..=11).collect());
    }
}

#[test]
fn two_thousand_checks_have_every_outcome() {
    // The largest lists take long without optimization.
    let small = (1..=2_000).filter(|number| !kind_of(*number).name.starts_with("largest"));
    let outcomes = small.map(|number| outcome_of(&input(Check, 1, number).expected(Check)));
    let outcomes: BTreeSet<Outcome> = outcomes.collect();
    assert_eq!(outcomes, Check.outcomes().into_iter().collect());
}

/// Some lists of codes with a ribbon of the kind for each, and what comes of
/// it.
fn of_kind(name: &str) -> Vec<(Vec<Code>, Vec<u8>, Outcome)> {
    let kind = RIBBONS.iter().find(|kind| kind.name == name).unwrap();
    let made = |number| {
        let mut chance = Chance::of(8, number);
        let codes = few(&mut chance);
        let list = order_list(&mut chance, &codes);
        assert_eq!(codes_for(&mut chance, &list), codes);
        let ribbon = (kind.make)(&mut chance, &codes);
        let outcome = outcome_of(&reference::check_output(&list, &ribbon));
        (codes, ribbon, outcome)
    };
    (0..60).map(made).collect()
}

const HELD: &[Outcome] = &[HeldBelow, HeldAt, HeldAbove];
const NO_BAND: &[Outcome] = &[RibbonRefused(8)];

/// The kinds of ribbons, with what the check is to find.
const MEANT: [(&str, &[Outcome]); 23] = [
    ("its own ribbon", &[HeldAt]),
    ("its own, turned", &[HeldAt]),
    ("its own with bands before", &[HeldAbove]),
    ("its own with bands behind", &[HeldAbove]),
    ("its own, a band changed", &[HeldAt, Missing]),
    ("its own, a band left out", &[HeldBelow, Missing]),
    ("its own, a band put in", &[HeldAbove, Missing]),
    ("its own, cut off", &[HeldBelow, Missing]),
    ("its own in other orders, the shortest", HELD),
    ("codes merged", HELD),
    ("codes merged, the shortest of some", HELD),
    ("codes merged, all turned", HELD),
    ("codes end to end", HELD),
    ("one code turned alone", HELD),
    ("no bands", &[Missing]),
    ("about 16,384 bands", &[HeldAbove, RibbonRefused(15)]),
    ("far over 16,384 bands", &[RibbonRefused(15)]),
    ("16,384 bands, CR LF and more", &[RibbonRefused(15)]),
    (
        "about 16,384 bytes, one no band",
        &[RibbonRefused(8), RibbonRefused(15)],
    ),
    ("a byte that is no band", NO_BAND),
    ("a line break inside", NO_BAND),
    ("in lower case", NO_BAND),
    ("an order list", NO_BAND),
];

#[test]
fn each_kind_of_ribbon_comes_out_as_it_is_meant() {
    for (name, outcomes) in MEANT {
        for (codes, ribbon, outcome) in of_kind(name) {
            assert!(
                outcomes.contains(&outcome),
                "{name}: {outcome}, {codes:?}, {ribbon:?}"
            );
        }
    }
}

#[test]
fn most_ribbons_that_are_to_miss_a_code_miss_one() {
    for name in [
        "all codes but one",
        "one code cut short behind",
        "one code cut short before",
        "one code with a band changed",
    ] {
        let missing = |(codes, ribbon, _): &(Vec<Code>, Vec<u8>, Outcome)| {
            codes.iter().filter(|code| !stands(ribbon, code)).count() == 1
        };
        let count = of_kind(name).iter().filter(|made| missing(made)).count();
        assert!(count > 20, "{name}: {count}");
    }
}

#[test]
fn some_codes_stand_turned_alone() {
    let alone = |(codes, ribbon, _): &(Vec<Code>, Vec<u8>, Outcome)| {
        let alone =
            |code: &Code| !stands_given(ribbon, code) && stands_given(ribbon, &turned(code));
        codes.iter().any(alone)
    };
    for name in ["one code turned alone", "codes merged, all turned"] {
        assert!(of_kind(name).iter().filter(|made| alone(made)).count() > 20);
    }
}

#[test]
fn a_ribbons_limit_is_tried_on_both_sides() {
    for name in ["about 16,384 bands", "a code at the end of about 16,384"] {
        let lengths = of_kind(name).into_iter().map(|(_, ribbon, _)| ribbon.len());
        let lengths: BTreeSet<usize> = lengths.collect();
        assert_eq!(lengths, [16_383, 16_384, 16_385].into());
    }
    let at_the_end = of_kind("a code at the end of about 16,384").into_iter();
    let outcomes: BTreeSet<Outcome> = at_the_end
        .filter(|(_, ribbon, _)| ribbon.len() == 16_384)
        .map(|(_, _, outcome)| outcome)
        .collect();
    assert_eq!(outcomes, [HeldAbove, Missing].into());
}

#[test]
fn arguments_name_files_as_they_are_meant() {
    let room = Room::of_worker(9).unwrap();
    for kind in &NAMINGS {
        let files = (kind.make)(b"the list".to_vec(), b"the ribbon".to_vec());
        let names = room.lay_out(&files).unwrap();
        assert_eq!(names.len(), files.len());
        for (name, file) in names.iter().zip(&files) {
            let read = std::fs::read(name).unwrap_or_default();
            assert_eq!(read, file.bytes(), "{}", kind.name);
        }
    }
    let folder = room.lay_out(&[File::Folder]).unwrap().remove(0);
    drop(room);
    assert!(!std::path::Path::new(&folder).exists());
}

#[test]
fn each_damage_changes_files_and_breaks_some() {
    for (name, damage) in DAMAGES {
        let (mut changed, mut refused) = (0, 0);
        for number in 0..200 {
            let mut chance = Chance::of(1, number);
            let codes = few(&mut chance);
            let file = order_list(&mut chance, &codes);
            let damaged = damage(&mut chance, &file);
            changed += usize::from(damaged != file);
            refused += usize::from(read(&damaged).is_err());
        }
        assert!(changed > 30 && refused > 20, "{name}: {changed}, {refused}");
    }
}

#[test]
fn any_bytes_can_be_damaged() {
    for (_, damage) in DAMAGES {
        for file in [&b""[..], b"x", b"\r\n", b"\"", b"\r\n\r\n", b",", b"\n\r"] {
            for number in 0..30 {
                damage(&mut Chance::of(2, number), file);
            }
        }
    }
}

#[test]
fn a_fault_is_refused_by_its_number_in_its_row() {
    for number in 0..300 {
        let mut chance = Chance::of(4, number);
        let codes = [few(&mut chance), few(&mut chance), few(&mut chance)].concat();
        let row = chance.between(0, codes.len());
        for fault in numbers_for(row) {
            let mut rows = rows(&mut chance, &codes);
            put(&mut chance, &mut rows, row, *fault);
            let refusal = read(&written(&mut chance, &rows)).unwrap_err();
            assert_eq!((refusal.number, refusal.row), (*fault, row as u32 + 1));
        }
    }
}

/// The numbers that some files of a kind are refused by, and 0.
fn numbers_of(make: fn(&mut Chance) -> Vec<u8>) -> BTreeSet<u8> {
    let file = |number| make(&mut Chance::of(5, number));
    (0..100).map(|number| number_for(&file(number))).collect()
}

#[test]
fn limits_are_tried_on_both_sides() {
    for (make, number) in [
        (limits::bands as fn(&mut Chance) -> Vec<u8>, 7),
        (limits::name_bytes, 5),
        (limits::name_taken, 9),
        (limits::codes, 10),
    ] {
        assert!(numbers_of(make).is_superset(&[0, number].into()));
    }
    let lengths = (0..100).map(|number| limits::file_bytes(&mut Chance::of(6, number)).len());
    let lengths: BTreeSet<usize> = lengths.collect();
    assert!(lengths.is_superset(&[16_383, 16_384, 16_385].into()));
}

#[test]
fn codes_stand_at_up_to_a_thousand_starts_and_more() {
    let digits = |number| {
        let mut chance = Chance::of(9, number);
        let codes = at_many_starts(&mut chance);
        let list = order_list(&mut chance, &codes);
        let sheet = String::from_utf8(reference::sheet_output(&list)).unwrap();
        let places = |row: &str| row.rsplit(',').next().map(str::len);
        sheet.lines().skip(1).filter_map(places).max().unwrap()
    };
    let digits: BTreeSet<usize> = (0..60).map(digits).collect();
    assert_eq!(digits, [2, 3, 4].into());
}

/// The pairs of bands, as far from either end, that differ.
fn pairs_that_differ(code: &Code) -> usize {
    let pairs = code.iter().zip(code.iter().rev());
    pairs.filter(|(band, other)| band != other).count() / 2
}

#[test]
fn codes_look_alike_or_differ_in_a_pair() {
    // By that, odd or even, short or long, for codes of more than one colour.
    let mut counts = [[[0; 2]; 2]; 2];
    for number in 0..400 {
        for code in looking_alike(&mut Chance::of(10, number)) {
            assert!((1..=64).contains(&code.len()), "{code:?}");
            let differing = pairs_that_differ(&code);
            assert_eq!(differing == 0, code == turned(&code));
            if differing < 2 && code.iter().any(|band| *band != code[0]) {
                let (odd, long) = (code.len() % 2, usize::from(code.len() > 16));
                counts[differing][odd][long] += 1;
            }
        }
    }
    let counts = counts.as_flattened().as_flattened();
    assert!(counts.iter().all(|count| *count > 20), "{counts:?}");
}

#[test]
fn sheets_of_codes_that_look_alike_have_every_way() {
    let words = |number| {
        let mut chance = Chance::of(11, number);
        let codes = looking_alike(&mut chance);
        let list = order_list(&mut chance, &codes);
        let sheet = String::from_utf8(reference::sheet_output(&list)).unwrap();
        ["given", "turned", "either"].map(|word| sheet.contains(&format!(",{word},")))
    };
    let words: Vec<[bool; 3]> = (0..100).map(words).collect();
    for (i, least) in [25, 15, 75].into_iter().enumerate() {
        let count = words.iter().filter(|words| words[i]).count();
        assert!(count > least, "{i}: {count}");
    }
}

#[test]
fn the_longest_accepted_file() {
    let file = limits::longest_accepted(&mut Chance::of(7, 1));
    let read = read(&file).unwrap();
    assert_eq!((file.len(), read.names, read.bands), (15_120, 3_072, 8_192));
}

fn answer(bytes: &[u8]) -> Answer {
    Answer {
        bytes: bytes.to_vec(),
        said: Vec::new(),
        ending: Ending::Success,
    }
}

/// A run with a refusal by each of these numbers and so many ribbons.
fn tally(refused: std::ops::RangeInclusive<u64>, ribbons: u64) -> Tally {
    let mut tally = Tally::of(Ribbon);
    for number in refused {
        let line = format!("refused,{number},2\r\n").into_bytes();
        tally.add(number, &line, answer(&line));
    }
    for number in 100..100 + ribbons {
        tally.add(number, b"A\r\n", answer(b"A\r\n"));
    }
    tally
}

#[test]
fn a_run_fails_where_a_number_is_absent_or_strange() {
    let none: [&str; 0] = [];
    assert_eq!(tally(1..=11, 1_989).faults(), none);
    assert_eq!(tally(2..=11, 1_989).faults(), none);
    assert_eq!(tally(2..=11, 1_990).faults(), ["number 1 never given"]);
    assert_eq!(tally(1..=10, 1_990).faults(), ["number 11 never given"]);
    assert_eq!(tally(1..=12, 10).faults(), ["number 12 given"]);
    assert_eq!(tally(13..=15, 10).faults().len(), 3);
}

/// A long run of the check with these lines, over and over.
fn tally_of_check(lines: &[&str]) -> Tally {
    let mut tally = Tally::of(Check);
    for (number, line) in (1..=2_000).zip(lines.iter().cycle()) {
        tally.add(number, line.as_bytes(), answer(line.as_bytes()));
    }
    tally
}

#[test]
fn a_run_of_the_check_fails_where_an_outcome_is_absent_or_strange() {
    let mut lines: Vec<String> = (1..=11).map(|n| format!("refused,{n},2\r\n")).collect();
    let others = [
        ("held below zero", "held,-12\r\n"),
        ("held at zero", "held,0\r\n"),
        ("held above zero", "held,7\r\n"),
        ("missing", "missing,0\r\n"),
        ("number 8 for the ribbon", "refused,8,0\r\n"),
        ("number 15 for the ribbon", "refused,15,0\r\n"),
    ];
    lines.extend(others.map(|(_, line)| line.to_string()));
    let all: Vec<&str> = lines.iter().map(|line| &line[..]).collect();
    let none: [&str; 0] = [];
    assert_eq!(tally_of_check(&all).faults(), none);
    for (outcome, line) in others {
        let but_one: Vec<&str> = all.iter().copied().filter(|other| *other != line).collect();
        let fault = format!("{outcome} never given");
        assert_eq!(tally_of_check(&but_one).faults(), [fault]);
    }
    for strange in [
        "refused,12,0\r\n",
        "refused,13,0\r\n",
        "refused,14,0\r\n",
        "AB\r\n",
    ] {
        let with_it = [&all[..], &[strange]].concat();
        assert_eq!(tally_of_check(&with_it).faults().len(), 1);
    }
}

#[test]
fn a_run_fails_where_an_answer_differs() {
    let mut one = tally(1..=11, 10);
    for number in 200..230 {
        one.add(number, b"A\r\n", answer(b"A"));
    }
    let mut late = answer(b"A\r\n");
    late.ending = Ending::TooLate;
    let mut other = Tally::of(Ribbon);
    other.add(150, b"A\r\n", late);
    let both = one.merged(other);
    assert_eq!(both.faults(), ["31 differ", "stopped there"]);
    let shown: Vec<u64> = both.first.keys().copied().collect();
    assert_eq!(shown, [150, 200, 201, 202, 203, 204, 205, 206, 207, 208]);
}

#[test]
fn a_difference_is_shown_readably() {
    let input = Input {
        kind: "few codes".to_string(),
        bytes: b"name,code\r\n\"a\\\x7F\"\"\",AB".to_vec(),
        cut: Some(4),
        files: Vec::new(),
    };
    let ribbon = [&[b'A'; 300][..], b"B\r\n"].concat();
    let other = [&[b'A'; 300][..], b"C"].concat();
    let text = show::difference(9, &input, &ribbon, &answer(&other));
    let forty = "A".repeat(40);
    let lines = [
        "input 9 differs (few codes):",
        "  standard input, in two parts of 4 and 17, 21 bytes:",
        r"    name,code\r\n",
        r#"    "a\\\x7F""",AB"#,
        &format!(r"  reference: [260 bytes]{forty}B\r\n"),
        &format!("  program:   [260 bytes]{forty}C"),
    ];
    assert_eq!(text, lines.join("\n"));
}

#[test]
fn files_are_shown_with_their_names() {
    let input = Input {
        kind: "few codes; no bands".to_string(),
        bytes: Vec::new(),
        cut: None,
        files: vec![File::Holding(b"name,code\r\nP,AB".to_vec()), File::Absent],
    };
    let lines = [
        "few codes; no bands",
        "  file 1, 15 bytes:",
        r"    name,code\r\n",
        "    P,AB",
        "  file 2, 0 bytes:",
        r#"arguments: "a/1" "a/2""#,
        "",
    ];
    let names = ["a/1".into(), "a/2".into()];
    assert_eq!(show::files(&input, &names), lines.join("\n"));
}

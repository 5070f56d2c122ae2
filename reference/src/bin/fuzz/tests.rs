//! The changes and the choices of a run, without the programs.

use crate::changes::{changed, CHANGES, LIMITS};
use crate::classes::class;
use crate::corpus::Corpus;
use crate::options::options;
use crate::spans::span;
use crate::trial::{Case, Trial};
use reference::drive::chance::Chance;
use reference::drive::programs::Program;
use reference::drive::run::{run, Answer, Ending};
use std::collections::BTreeSet;
use std::path::Path;
use std::time::Duration;

const LIST: &[u8] = b"name,code\r\n\"P\"\"1\",AABB\r\nFan,AAAC\r\n";

#[test]
fn any_bytes_can_be_changed() {
    for bytes in [&b""[..], b"x", b"\r\n", b"\n\r", b"\"", b",", b"\r\n\r\n"] {
        for number in 0..200 {
            let mut chance = Chance::of(1, number);
            let part = span(&mut chance, bytes);
            assert!(part.start <= part.end && part.end <= bytes.len());
            for change in CHANGES {
                change(&mut chance, bytes, LIST);
                change(&mut chance, LIST, bytes);
            }
        }
    }
}

#[test]
fn each_change_changes_something() {
    for (i, change) in CHANGES.iter().enumerate() {
        let made = (0..100).map(|number| change(&mut Chance::of(2, number), LIST, b"A\r\nZZ"));
        let made: BTreeSet<Vec<u8>> = made.collect();
        assert!(made.len() > 5, "change {i}: {}", made.len());
    }
}

#[test]
fn files_come_to_every_limit_and_not_far_past() {
    let made = (0..6_000).map(|number| changed(&mut Chance::of(3, number), LIST, LIST).len());
    let lengths: BTreeSet<usize> = made.collect();
    assert!(LIMITS.iter().all(|limit| lengths.contains(limit)));
    assert!(lengths.iter().all(|length| *length <= 40_000));
}

fn trial(program: Program, list: &[u8]) -> Trial {
    let case = Case {
        list: list.to_vec(),
        ribbon: Vec::new(),
    };
    let expected = program.expected(&case.list, &case.ribbon);
    let answer = Answer {
        bytes: expected.clone(),
        said: Vec::new(),
        ending: Ending::Success,
    };
    Trial {
        program,
        case,
        expected,
        answer,
    }
}

#[test]
fn classes_tell_programs_numbers_and_rows_apart() {
    let lists = [&b"name,code\r\nP,AB\r\n"[..], b"name,code\r\nP,aB\r\n"];
    let later = b"name,code\r\nP,AB\r\nQ,aB\r\n";
    let of = |program, list| class(&trial(program, list));
    let classes = [Program::Ribbon, Program::Sheet, Program::Check]
        .map(|program| [lists[0], lists[1], later].map(|list| of(program, list)));
    assert_eq!(classes.iter().flatten().collect::<BTreeSet<_>>().len(), 9);
    let other_bands = of(Program::Ribbon, b"name,code\r\nP,XY\r\n");
    assert_eq!(other_bands, classes[0][0]);
}

#[test]
fn classes_tell_the_ways_on_a_sheet_apart() {
    let lists = ["ABC,DEF", "AAB,ABA", "ABA,ABB", "ABB,BBA", "AAB,BAA"];
    let of = |program, codes: &str| {
        let (one, other) = codes.split_once(',').unwrap();
        let list = format!("name,code\r\nP,{one}\r\nQ,{other}\r\n");
        class(&trial(program, list.as_bytes()))
    };
    let of_sheets = lists.map(|codes| of(Program::Sheet, codes));
    let ways = of_sheets.map(|class| class.2);
    assert_eq!(ways[0], [true, false, false]);
    assert_eq!(ways[1], [true, false, true]);
    assert_eq!(ways[3], [true, true, false]);
    assert_eq!(of_sheets[1], of_sheets[2]);
    assert_eq!(of_sheets[3], of_sheets[4]);
    // Turned and either have as many letters, so that all sizes are the same.
    assert_eq!(of_sheets[2].3, of_sheets[3].3);
    assert_ne!(of_sheets[2], of_sheets[3]);
    // Ribbons have no ways.
    let ribbon = of(Program::Ribbon, lists[0]);
    assert_eq!(ribbon.2, [false; 3]);
}

#[test]
fn a_corpus_keeps_what_is_new() {
    let file = |name: &str| Path::new(env!("CARGO_MANIFEST_DIR")).join("..").join(name);
    let lists = [file("examples/bench.csv"), file("examples/workshop.csv")];
    let ribbons = [file("expected/bench.ribbon.stdout")];
    let mut corpus = Corpus::of(&lists, &ribbons).unwrap();
    let mut chance = Chance::of(4, 1);
    for (list, classes) in [(LIST, 1), (LIST, 1), (&LIST[1..], 2)] {
        let trial = trial(Program::Ribbon, list);
        corpus.offer(&mut chance, class(&trial), trial.case);
        assert_eq!(corpus.seen.len(), classes);
    }
    let drawn = (0..200).map(|_| corpus.some(&mut chance).list.clone());
    assert_eq!(drawn.collect::<BTreeSet<_>>().len(), 4);
}

#[test]
fn what_a_program_does_is_seen() {
    let run = |program: &str, words: &[&str], limit| {
        let words: Vec<_> = words.iter().map(|word| (*word).into()).collect();
        run(Path::new(program), &words, &[b"A"], limit).unwrap()
    };
    let long = Duration::from_secs(10);
    assert!(run("cat", &[], long).is(b"A"));
    assert!(!run("cat", &[], long).is(b"B"));
    let said = run("sh", &["-c", "cat; echo no >&2"], long);
    assert!(said.bytes == b"A" && said.said == b"no\n" && !said.is(b"A"));
    let killed = run("sh", &["-c", "cat; kill -9 $$"], long);
    assert!(killed.bytes == b"A" && !killed.is(b"A"));
    let late = run("sleep", &["60"], Duration::from_millis(20));
    assert!(late.ending == Ending::TooLate && !late.is(b""));
}

#[test]
fn no_run_without_programs_files_or_time() {
    let of = |text: &str| options(text.split(' ').map(String::from));
    let right = of("--sheet a --lists b c --ribbons d --keep e -- 2 7").unwrap();
    assert_eq!((right.time, right.seed), (Duration::from_secs(120), 7));
    assert_eq!((right.lists.len(), right.ribbons.len()), (2, 1));
    for wrong in [
        "--lists b --ribbons d --keep e -- 2",
        "--sheet a --ribbons d --keep e -- 2",
        "--sheet a --lists b --keep e -- 2",
        "--sheet a --lists b --ribbons d --keep e -- 0",
        "--sheet a --lists b --ribbons d --keep e -- -1",
        "--sheet a --lists b --ribbons d --keep e -- x",
        "--sheet a --lists b --ribbons d --keep e -- 1 2 3",
        "--sheets a --lists b --ribbons d --keep e -- 1",
        "--sheet a --sheet b --lists b --ribbons d --keep e -- 1",
        "--sheet a b --lists b --ribbons d --keep e -- 1",
        "--sheet a --lists b --ribbons d --keep e",
    ] {
        assert!(of(wrong).is_none(), "{wrong}");
    }
}

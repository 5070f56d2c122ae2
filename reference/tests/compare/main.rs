//! The comparison run on a stand-in for each program, right and wrong.

use std::process::{Command, Output};

const STAND_IN: &str = concat!(env!("CARGO_MANIFEST_DIR"), "/tests/compare/stand-in");
const PROGRAMS: [&str; 3] = ["ribbon", "sheet", "check"];

fn compare(program: &str, fault: &str, words: &[&str]) -> Output {
    Command::new(env!("CARGO_BIN_EXE_compare"))
        .arg(program)
        .args(words)
        .env("REFERENCE", env!("CARGO_BIN_EXE_reference"))
        .env("PROGRAM", program)
        .env("FAULT", fault)
        // Where files that are shown stay.
        .env("TMPDIR", env!("CARGO_TARGET_TMPDIR"))
        .output()
        .unwrap()
}

fn compare_with_stand_in(program: &str, fault: &str, count: &str) -> (Option<i32>, String) {
    let output = compare(program, fault, &["--program", STAND_IN, count, "1"]);
    (
        output.status.code(),
        String::from_utf8(output.stdout).unwrap(),
    )
}

#[test]
fn a_right_program_is_equal() {
    for program in PROGRAMS {
        let (status, text) = compare_with_stand_in(program, "none", "40");
        assert_eq!(status, Some(0), "{program}: {text}");
        assert!(text.starts_with("40 inputs, all equal ("), "{text}");
        assert_eq!(text.lines().count(), 1);
    }
}

/// Some of so many inputs find the fault.
fn is_found_out(program: &str, fault: &str, count: &str) {
    let (status, text) = compare_with_stand_in(program, fault, count);
    assert_eq!(status, Some(1), "{program}, {fault}: {text}");
    let shown = text.lines().filter(|line| line.starts_with("input "));
    assert!((1..=10).contains(&shown.count()), "{fault}: {text}");
    let last = text.lines().last().unwrap();
    let whole = last.starts_with(&format!("{count} inputs, ")) && last.contains(" differ");
    assert!(whole, "{program}, {fault}: {text}");
}

#[test]
fn a_wrong_program_is_found_out() {
    for program in PROGRAMS {
        for fault in ["number", "ending", "status", "silence", "endless"] {
            is_found_out(program, fault, "40");
        }
    }
}

#[test]
fn a_wrong_sheet_is_found_out() {
    for fault in ["ways", "given", "either", "once", "quotes"] {
        is_found_out("sheet", fault, "40");
    }
    // A number of places whose last digit alone is written.
    is_found_out("sheet", "tens", "200");
}

#[test]
fn a_wrong_check_is_found_out() {
    for fault in [
        "sign", "next", "row", "long", "swapped", "last", "absent", "lines", "strict",
    ] {
        is_found_out("check", fault, "200");
    }
}

#[test]
fn an_input_can_be_made_again() {
    for program in PROGRAMS {
        let show = |words: &[&str]| compare(program, "none", words).stdout;
        assert_eq!(show(&["--show", "21", "1"]), show(&["--show", "21"]));
        assert_ne!(show(&["--show", "21", "1"]), show(&["--show", "21", "2"]));
        assert_ne!(show(&["--show", "21", "1"]), show(&["--show", "22", "1"]));
    }
}

#[test]
fn the_files_of_a_check_can_be_had_again() {
    let text = String::from_utf8(compare("check", "none", &["--show", "5", "1"]).stdout).unwrap();
    let arguments = text.lines().last().unwrap();
    let names: Vec<&str> = arguments.split('"').skip(1).step_by(2).collect();
    let list = compare("ribbon", "none", &["--show", "5", "1"]).stdout;
    assert_eq!(std::fs::read(names[0]).unwrap(), list, "{text}");
    assert!(text.contains("file 2, "), "{text}");
}

#[test]
fn what_cannot_be_run_has_status_2() {
    for (program, words) in [
        ("ribbon", &["--program", "tests/compare/none", "1"][..]),
        ("check", &["--program", STAND_IN, "0"]),
        ("sheet", &["--program", STAND_IN, "many"]),
        ("check", &["--program", STAND_IN, "1", "2", "3"]),
        ("ribbon", &["--program"]),
        ("check", &["--show"]),
        ("ribbons", &["--program", STAND_IN, "1"]),
        ("1", &["--program", STAND_IN]),
    ] {
        let output = compare(program, "none", words);
        assert_eq!(output.status.code(), Some(2), "{program} {words:?}");
        assert!(output.stdout.is_empty() && !output.stderr.is_empty());
    }
}

//! The fuzz run on a stand-in for each program, right and wrong.

use std::path::{Path, PathBuf};
use std::process::Command;
use std::{fs, thread};

const HERE: &str = env!("CARGO_MANIFEST_DIR");

/// Status, text, and the folder where a difference is kept.
fn fuzz(program: &str, fault: &str, minutes: &str) -> (Option<i32>, String, PathBuf) {
    fuzz_at("tests/compare/stand-in", program, fault, minutes)
}

fn fuzz_at(
    path: &str,
    program: &str,
    fault: &str,
    minutes: &str,
) -> (Option<i32>, String, PathBuf) {
    let keep = Path::new(env!("CARGO_TARGET_TMPDIR")).join(format!("fuzz-{program}-{fault}"));
    let _ = fs::remove_dir_all(&keep);
    let output = Command::new(env!("CARGO_BIN_EXE_fuzz"))
        .args([&format!("--{program}"), path, "--keep"])
        .arg(&keep)
        .args(["--lists", "../examples/bench.csv"])
        .args(["--ribbons", "../expected/bench.ribbon.stdout"])
        .args(["--", minutes, "1"])
        .current_dir(HERE)
        .env("REFERENCE", env!("CARGO_BIN_EXE_reference"))
        .env("PROGRAM", program)
        .env("FAULT", fault)
        .output()
        .unwrap();
    let text = String::from_utf8(output.stdout).unwrap();
    (output.status.code(), text, keep)
}

#[test]
fn right_programs_are_equal() {
    for program in ["ribbon", "sheet", "check"] {
        let (status, text, keep) = fuzz(program, "none", "0.003");
        assert_eq!(status, Some(0), "{text}");
        assert!(text.contains(", seed 1\n") && text.ends_with("all equal\n"));
        assert!(!keep.exists());
    }
}

/// It is found out in less than the time, and the folder has what is needed.
fn is_found_out(program: &str, fault: &str) -> PathBuf {
    let (status, text, keep) = fuzz(program, fault, "0.5");
    assert_eq!(status, Some(1), "{program}, {fault}: {text}");
    assert!(text.contains(&format!("{program} differs")), "{text}");
    let file = |name: &str| fs::read(keep.join(format!("{program}.{name}"))).unwrap();
    let ribbon = match program {
        "check" => file("ribbon"),
        _ => Vec::new(),
    };
    let expected = match program {
        "ribbon" => reference::ribbon_output(&file("list")),
        "sheet" => reference::sheet_output(&file("list")),
        _ => reference::check_output(&file("list"), &ribbon),
    };
    assert_eq!(file("reference"), expected);
    let alike = file("program") == expected && file("standard-error").is_empty();
    assert_eq!(alike, fault == "killed", "{text}");
    keep
}

#[test]
fn wrong_programs_are_found_out() {
    thread::scope(|scope| {
        for (program, fault) in [
            ("ribbon", "said"),
            ("sheet", "killed"),
            ("sheet", "given"),
            ("check", "silence"),
            ("check", "row"),
        ] {
            scope.spawn(move || is_found_out(program, fault));
        }
    });
}

#[test]
fn a_difference_is_made_small() {
    let keep = is_found_out("ribbon", "number");
    let list = fs::read(keep.join("ribbon.list")).unwrap();
    // One byte is enough to break row 1.
    assert_eq!(list.len(), 1, "{list:?}");
}

#[test]
fn what_cannot_be_run_has_status_2() {
    let (status, text, _) = fuzz_at("tests/compare/none", "sheet", "none", "0.5");
    assert_eq!((status, &text[..]), (Some(2), ""));
}

//! The remarks in the file of cases, which say by hand from the documents how
//! lines of a case's text begin, against what the library gives.

use crate::calls::run;
use crate::cases::{groups, work, Case, Work};
use crate::text::Text;

/// The file of cases of the tree in which the tests are run, which need not be
/// the one in which they were built.
fn file_of_cases() -> Vec<u8> {
    let here = std::env::var("CARGO_MANIFEST_DIR").expect("cargo runs the tests");
    std::fs::read(here + "/../crates/trials/stdin").expect("the file of cases is there")
}

/// The parts of remarks that are wrong, each with its line, in a file that is
/// right otherwise. A case without a remark has one part, of no bytes.
fn faults(file: &str) -> Vec<String> {
    let (mut faults, mut number) = (Vec::new(), 0);
    for (line, text) in (1..).zip(file.lines()) {
        match text.as_bytes().first() {
            None | Some(b'#') => continue,
            Some(b'=') => {
                number = 0;
                continue;
            }
            _ => {}
        }
        match work(text).expect("the line is right") {
            (Work::Make(make), _) => number += make.count as usize,
            (Work::Case(case), remark) => {
                let wrong = wrong_parts(&case, number, remark.unwrap_or(""));
                faults.extend(wrong.iter().map(|part| format!("line {line}: {part:?}")));
                number += 1;
            }
        }
    }
    faults
}

/// The parts that begin no line of the text of a case that has this number in
/// its group. One of no bytes would begin any, so it is wrong.
fn wrong_parts<'a>(case: &Case, number: usize, remark: &'a str) -> Vec<&'a str> {
    let mut text = Text::default();
    run(case, number, &mut text);
    let lines: Vec<&[u8]> = text.said.split(|byte| *byte == b'\n').collect();
    let right = |part: &str| !part.is_empty() && lines.iter().any(|line| begins(line, part));
    remark.split("; ").filter(|part| !right(part)).collect()
}

/// Whether a line begins so, and no number is cut in two.
fn begins(line: &[u8], part: &str) -> bool {
    let digit = |byte: Option<&u8>| byte.is_some_and(u8::is_ascii_digit);
    let rest = line.strip_prefix(part.as_bytes());
    rest.is_some_and(|rest| !(digit(part.as_bytes().last()) && digit(rest.first())))
}

#[test]
fn every_case_has_a_remark_that_is_right() {
    let file = file_of_cases();
    groups(&file).expect("every line is right");
    let faults = faults(&String::from_utf8(file).expect("every line is right"));
    assert!(faults.is_empty(), "{}", faults.join("\n"));
}

const LIST: &str = "list ABBC 2,2 ab 1,1 ABC 3,2,70";

#[test]
fn right_remarks() {
    for remark in [
        "lay,ribbon,3,1",
        "lay,ribbon,3,1; check,held,0; case,1,list",
        "check,held,0; lay,ribbon,3",
        "found,128,0 given 0;1 given 1,kept,126",
        "rows,70,name,way",
    ] {
        let file = format!("= a\nmake ties 1 1\n{LIST} : {remark}\n");
        assert!(faults(&file).is_empty(), "{remark}");
    }
}

#[test]
fn wrong_remarks_are_told_with_their_lines() {
    for (remark, part) in [
        ("lay,ribbon,3,2", "lay,ribbon,3,2"),
        ("lay,ribbon,3,1; check,missing", "check,missing"),
        ("case,0,list", "case,0,list"),
        // The line has 128.
        ("found,12", "found,12"),
        ("lay,ribbon,3,1; ", ""),
        ("ay,ribbon,3,1", "ay,ribbon,3,1"),
    ] {
        let file = format!("# b\n= a\nmake ties 1 1\n\n{LIST} : {remark}\n");
        assert_eq!(faults(&file), [format!("line 5: {part:?}")]);
    }
    assert_eq!(faults(&format!("= a\n{LIST}\n")), ["line 2: \"\""]);
}

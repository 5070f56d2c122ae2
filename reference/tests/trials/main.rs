//! The command that runs a file of cases, from the outside.

use std::io::Write;
use std::process::{Command, Output, Stdio};

const LIST: &str = "list ABBC 2,2 ab 1,1 ABC 3,2,70 : lay,ribbon,3,1";

fn trials(words: &[&str], file: &str) -> Output {
    let mut child = Command::new(env!("CARGO_BIN_EXE_trials"))
        .args(words)
        .stdin(Stdio::piped())
        .stdout(Stdio::piped())
        .stderr(Stdio::piped())
        .spawn()
        .unwrap();
    let mut given = child.stdin.take().unwrap();
    given.write_all(file.as_bytes()).unwrap();
    drop(given);
    child.wait_with_output().unwrap()
}

#[test]
fn a_line_for_each_group_and_for_all() {
    let file = format!("= one\n{LIST}\n= more\nmake ties 2 1\n{LIST}\n");
    let output = trials(&[], &file);
    assert!(output.status.success() && output.stderr.is_empty());
    let text = String::from_utf8(output.stdout).unwrap();
    let begins = ["group,cases,checksum", "one,1,", "more,3,", "all,4,"];
    assert_eq!(text.lines().count(), begins.len());
    let mut lines = text.lines().zip(begins);
    assert!(lines.all(|(line, begin)| line.starts_with(begin)), "{text}");
}

#[test]
fn texts_in_full() {
    let file = format!("= one\n{LIST}\n{LIST}\n");
    let cases = |words: &[&str]| {
        let text = String::from_utf8(trials(words, &file).stdout).unwrap();
        let of_cases = text.lines().filter(|line| line.starts_with("case,"));
        of_cases.map(str::to_string).collect::<Vec<_>>()
    };
    assert!(cases(&[]).is_empty() && cases(&["lines", "all"]).is_empty());
    assert_eq!(cases(&["first"]), ["case,0,list"]);
    assert_eq!(cases(&["all"]), ["case,0,list", "case,1,list"]);
}

#[test]
fn a_wrong_line_has_status_2_and_its_number() {
    let output = trials(&["all"], &format!("= one\n{LIST}\nlist ABBC 2,2\n{LIST}\n"));
    assert_eq!(output.status.code(), Some(2));
    assert!(output.stdout.is_empty());
    let said = String::from_utf8(output.stderr).unwrap();
    assert!(said.starts_with("trials: line 3: "), "{said}");
}

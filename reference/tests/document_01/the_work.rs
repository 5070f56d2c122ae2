//! Document 01, "The work": the bytes the three programs write, and the
//! command that writes them.

use reference::{check_output, ribbon_output, sheet_output};
use std::io::Write;
use std::path::PathBuf;
use std::process::{Command, Output, Stdio};

const EXAMPLE: &[u8] = b"name,code\r\nPump,AABB\r\nFan,AAAC\r\nLamp,ABBB\r\n";
const SHEET: &[u8] = b"name,way,start,bands,places\r\n\
    Pump,given,2,AABB,1\r\nFan,turned,0,CAAA,1\r\nLamp,given,3,ABBB,1\r\n";

#[test]
fn the_worked_example() {
    assert_eq!(ribbon_output(EXAMPLE), b"CAAABBB\r\n");
    assert_eq!(sheet_output(EXAMPLE), SHEET);
    assert_eq!(check_output(EXAMPLE, b"CAAABBB\r\n"), b"held,0\r\n");
}

#[test]
fn a_refusal_is_one_line() {
    let full: Vec<u8> = (0..129)
        .flat_map(|i| format!("N{i},AB\r\n").into_bytes())
        .collect();
    let full = [&b"name,code\r\n"[..], &full].concat();
    for (file, line) in [
        (&b""[..], &b"refused,4,0\r\n"[..]),
        (&[b'A'; 16_385], b"refused,1,0\r\n"),
        (b"name,code\r\n", b"refused,11,0\r\n"),
        (b"name,code\r\na,AB\r\nb,b\r\n", b"refused,8,3\r\n"),
        (&full, b"refused,10,130\r\n"),
    ] {
        assert_eq!(ribbon_output(file), line);
        assert_eq!(sheet_output(file), line);
        assert_eq!(check_output(file, b"AB\r\n"), line);
    }
}

#[test]
fn the_check_programs_answers() {
    let bound = b"name,code\r\na,ABB\r\nb,BBC\r\nc,BBB\r\n";
    for (ribbon, line) in [
        (&b"BBBABBC"[..], &b"held,0\r\n"[..]),
        (b"ABBBC", b"held,-2\r\n"),
        (b"XXXXXXBBBABBC", b"held,6\r\n"),
        (b"", b"missing,0\r\n"),
        (b"ABBB", b"missing,1\r\n"),
        (b"ABBBA", b"missing,1\r\n"),
        (b"ABBC", b"missing,2\r\n"),
    ] {
        assert_eq!(check_output(bound, ribbon), line);
    }
}

#[test]
fn one_cr_lf_at_a_ribbon_files_very_end_is_not_part_of_it() {
    let list = b"name,code\r\na,AB\r\n";
    for (ribbon, line) in [
        (&b"AB"[..], &b"held,0\r\n"[..]),
        (b"AB\r\n", b"held,0\r\n"),
        (b"\r\n", b"missing,0\r\n"),
        (b"AB\r\n\r\n", b"refused,8,0\r\n"),
        (b"\r\nAB", b"refused,8,0\r\n"),
        (b"AB\n", b"refused,8,0\r\n"),
        (b"AB\r", b"refused,8,0\r\n"),
        (b"AB\n\r", b"refused,8,0\r\n"),
        (b"\"AB\"", b"refused,8,0\r\n"),
    ] {
        assert_eq!(check_output(list, ribbon), line, "{ribbon:?}");
    }
}

#[test]
fn a_ribbon_file_of_16384_bands_and_one_of_16385() {
    let list = b"name,code\r\na,A\r\n";
    let bands = |count| vec![b'A'; count];
    let ended = |count| [&bands(count)[..], b"\r\n"].concat();
    assert_eq!(check_output(list, &bands(16_384)), b"held,16383\r\n");
    assert_eq!(check_output(list, &ended(16_384)), b"held,16383\r\n");
    assert_eq!(check_output(list, &bands(16_385)), b"refused,15,0\r\n");
    assert_eq!(check_output(list, &ended(16_385)), b"refused,15,0\r\n");
}

#[test]
fn the_check_program_deals_with_the_order_list_first() {
    let long = vec![b'A'; 16_385];
    for ribbon in [&b"."[..], &long, b""] {
        let line = check_output(b"name,code\r\na,b\r\n", ribbon);
        assert_eq!(line, b"refused,8,2\r\n");
    }
}

#[test]
fn the_longest_names_and_128_codes_have_room() {
    // The rows as they stand in the sheet: names of 24 quotes but for a
    // number, codes of 64 bands, which are all alike.
    let field = |i: usize| format!("\"{}{i:03}\"", "\"\"".repeat(21));
    let band = "A".repeat(64);
    let row = |i| format!("{},{band}\r\n", field(i));
    let rows: String = (0..128).map(row).collect();
    let list = format!("name,code\r\n{rows}");
    let expected: String = (0..128)
        .map(|i| format!("{},either,0,{band},1\r\n", field(i)))
        .collect();
    let expected = format!("name,way,start,bands,places\r\n{expected}");
    assert_eq!(sheet_output(list.as_bytes()), expected.as_bytes());
}

/// Runs the command on a standard input.
fn command(words: &[&str], input: &[u8]) -> Output {
    let mut child = Command::new(env!("CARGO_BIN_EXE_reference"))
        .args(words)
        .stdin(Stdio::piped())
        .stdout(Stdio::piped())
        .stderr(Stdio::piped())
        .spawn()
        .unwrap();
    // A command that takes no input may close it first.
    let _ = child.stdin.take().unwrap().write_all(input);
    child.wait_with_output().unwrap()
}

/// A file for the command to read.
fn stored(name: &str, bytes: &[u8]) -> String {
    let path = PathBuf::from(env!("CARGO_TARGET_TMPDIR")).join(name);
    std::fs::write(&path, bytes).unwrap();
    path.into_os_string().into_string().unwrap()
}

#[test]
fn the_command_reads_an_order_list_from_standard_input() {
    for (words, input, written) in [
        (["ribbon"], EXAMPLE, &b"CAAABBB\r\n"[..]),
        (["sheet"], EXAMPLE, SHEET),
        (["ribbon"], b"", b"refused,4,0\r\n"),
        (["sheet"], b"name,code\r\n", b"refused,11,0\r\n"),
    ] {
        let output = command(&words, input);
        assert!(output.status.success());
        assert_eq!(output.stdout, written);
    }
}

#[test]
fn the_command_reads_two_files_by_name() {
    let list = stored("list", EXAMPLE);
    let ribbon = stored("ribbon", b"XCAAABBB\r\n");
    let output = command(&["check", &list, &ribbon], b"");
    assert!(output.status.success());
    assert_eq!(output.stdout, b"held,1\r\n");
}

#[test]
fn a_file_that_is_not_named_or_cannot_be_opened_has_0_bytes() {
    let list = stored("list_alone", EXAMPLE);
    let ribbon = stored("ribbon_alone", b"CAAABBB\r\n");
    let absent = format!("{list}.absent");
    for (words, written) in [
        (&["check"][..], &b"refused,4,0\r\n"[..]),
        (&["check", &absent], b"refused,4,0\r\n"),
        (&["check", &absent, &ribbon], b"refused,4,0\r\n"),
        (&["check", &list], b"missing,0\r\n"),
        (&["check", &list, &absent], b"missing,0\r\n"),
    ] {
        // Standard input is no stand-in for a file.
        let output = command(words, EXAMPLE);
        assert!(output.status.success());
        assert_eq!(output.stdout, written, "{words:?}");
    }
}

#[test]
fn an_unknown_first_word_gets_the_usage() {
    for words in [&[][..], &["ribbons"], &["Ribbon"], &[""]] {
        let output = command(words, EXAMPLE);
        assert_eq!(output.status.code(), Some(2));
        assert_eq!(output.stdout, b"");
        assert!(output.stderr.starts_with(b"usage: reference"));
    }
}

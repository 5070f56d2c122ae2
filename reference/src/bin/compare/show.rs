//! A difference as a reader can read it.

use crate::inputs::Input;
use reference::drive::run::{Answer, Ending};
use std::ffi::OsString;

const SHOWN_LINES: usize = 12;
const SHOWN_BYTES: usize = 160;

pub fn difference(number: u64, input: &Input, expected: &[u8], answer: &Answer) -> String {
    let ending = match &answer.ending {
        Ending::Success => String::new(),
        Ending::Failure(status) => format!(" ({status})"),
        Ending::TooLate => " (took too long)".to_string(),
    };
    let said = match &answer.said[..] {
        [] => String::new(),
        said => format!(", on standard error: {}", around(said, 0)),
    };
    let pairs = expected.iter().zip(&answer.bytes);
    let alike = pairs.take_while(|(one, other)| one == other).count();
    format!(
        "input {number} differs ({}):\n{}  reference: {}\n  program:   {}{ending}{said}",
        input.kind,
        given(input),
        around(expected, alike),
        around(&answer.bytes, alike),
    )
}

/// An input's files, and the arguments that name them.
pub fn files(input: &Input, names: &[OsString]) -> String {
    let names: Vec<String> = names.iter().map(|name| format!("{name:?}")).collect();
    let (kind, given) = (&input.kind, given(input));
    format!("{kind}\n{given}arguments: {}\n", names.join(" "))
}

/// What the program is given: its standard input, or files by name.
fn given(input: &Input) -> String {
    let parts = match input.cut {
        Some(cut) => format!(", in two parts of {cut} and {}", input.bytes.len() - cut),
        None => String::new(),
    };
    let standard = match input.files.is_empty() {
        true => part(&format!("standard input{parts}"), &input.bytes),
        false => String::new(),
    };
    let numbered = (1..).zip(&input.files);
    let files = numbered.map(|(number, file)| part(&format!("file {number}"), file.bytes()));
    standard + &files.collect::<String>()
}

fn part(name: &str, bytes: &[u8]) -> String {
    format!("  {name}, {} bytes:\n{}", bytes.len(), lines(bytes))
}

fn lines(bytes: &[u8]) -> String {
    let all: Vec<&[u8]> = bytes.split_inclusive(|byte| *byte == b'\n').collect();
    let shown = all.iter().take(SHOWN_LINES);
    let text: String = shown
        .map(|line| format!("    {}\n", around(line, 0)))
        .collect();
    match all.len().saturating_sub(SHOWN_LINES) {
        0 => text,
        more => format!("{text}    [{more} more lines]\n"),
    }
}

/// Some bytes from shortly before a place on.
fn around(bytes: &[u8], place: usize) -> String {
    let start = match bytes.len() <= SHOWN_BYTES {
        true => 0,
        false => place.saturating_sub(SHOWN_BYTES / 4),
    };
    let end = bytes.len().min(start + SHOWN_BYTES);
    let (before, after) = (left_out(start), left_out(bytes.len() - end));
    format!("{before}{}{after}", readable(&bytes[start..end]))
}

fn left_out(bytes: usize) -> String {
    match bytes {
        0 => String::new(),
        _ => format!("[{bytes} bytes]"),
    }
}

/// Quotes stay as they are, unlike in the standard library's escapes.
fn readable(bytes: &[u8]) -> String {
    let word = |byte: &u8| match byte {
        b'\r' => "\\r".to_string(),
        b'\n' => "\\n".to_string(),
        b'\\' => "\\\\".to_string(),
        0x20..=0x7E => char::from(*byte).to_string(),
        _ => format!("\\x{byte:02X}"),
    };
    bytes.iter().map(word).collect()
}

//! The command: writes the bytes that one of the three programs writes.

use std::ffi::OsString;
use std::io::{self, Read, Write};
use std::process::ExitCode;

const USAGE: &str = "usage: reference ribbon < LIST
       reference sheet < LIST
       reference check LIST RIBBON";

fn main() -> ExitCode {
    let mut words = std::env::args_os().skip(1);
    let output = match words.next().as_ref().and_then(|word| word.to_str()) {
        Some("ribbon") => reference::ribbon_output(&standard_input()),
        Some("sheet") => reference::sheet_output(&standard_input()),
        Some("check") => {
            let (list, ribbon) = (words.next(), words.next());
            reference::check_output(&named_file(list), &named_file(ribbon))
        }
        _ => {
            eprintln!("{USAGE}");
            return ExitCode::from(2);
        }
    };
    match write(&output) {
        Ok(()) => ExitCode::SUCCESS,
        Err(error) => {
            eprintln!("reference: {error}");
            ExitCode::FAILURE
        }
    }
}

fn write(output: &[u8]) -> io::Result<()> {
    let mut out = io::stdout().lock();
    out.write_all(output)?;
    out.flush()
}

/// An input that can't be read counts as one of 0 bytes, as a file does.
fn standard_input() -> Vec<u8> {
    let mut bytes = Vec::new();
    match io::stdin().read_to_end(&mut bytes) {
        Ok(_) => bytes,
        Err(_) => Vec::new(),
    }
}

/// A file that isn't named or can't be opened counts as one of 0 bytes.
fn named_file(name: Option<OsString>) -> Vec<u8> {
    name.and_then(|name| std::fs::read(name).ok())
        .unwrap_or_default()
}

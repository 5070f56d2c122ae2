//! Runs a file of cases through the library's calls, and writes a count and a
//! checksum for each group of cases.

#![forbid(unsafe_code)]

mod calls;
mod cases;
mod draws;
mod families;
mod fields;
mod groups;
mod lent;
mod making;
#[cfg(test)]
mod tests;
mod text;

use groups::Shown;
use std::io::{self, BufWriter, Read, Write};
use std::process::ExitCode;

fn main() -> ExitCode {
    match run() {
        Ok(()) => ExitCode::SUCCESS,
        Err(fault) => {
            eprintln!("trials: {fault}");
            ExitCode::from(2)
        }
    }
}

/// Nothing is run unless every line of the file is right.
fn run() -> Result<(), String> {
    let mode = std::env::args_os().nth(1).unwrap_or_default();
    let mut file = Vec::new();
    let said = |error: io::Error| error.to_string();
    io::stdin().read_to_end(&mut file).map_err(said)?;
    let groups = cases::groups(&file)?;
    let mut out = BufWriter::new(io::stdout().lock());
    groups::write(&groups, Shown::by(mode.as_encoded_bytes()), &mut out).map_err(said)?;
    out.flush().map_err(said)
}

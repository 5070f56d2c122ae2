//! A difference kept for a reader: the files and both outputs.

use crate::trial::Trial;
use reference::drive::programs::Program;
use reference::drive::run::Ending;
use std::path::Path;
use std::{fs, io};

const SHOWN: usize = 160;

/// Writes them to a folder, and tells of them.
pub fn keep(trial: &Trial, folder: &Path) -> io::Result<String> {
    fs::create_dir_all(folder)?;
    let mut files = vec![
        ("list", &trial.case.list),
        ("reference", &trial.expected),
        ("program", &trial.answer.bytes),
        ("standard-error", &trial.answer.said),
    ];
    if trial.program == Program::Check {
        files.insert(1, ("ribbon", &trial.case.ribbon));
    }
    let mut text = format!("{} differs{}\n", trial.program, ending(trial));
    for (name, bytes) in files {
        let path = folder.join(format!("{}.{name}", trial.program));
        fs::write(&path, bytes)?;
        text += &format!("  {}, {}\n", path.display(), shown(bytes));
    }
    Ok(text)
}

fn ending(trial: &Trial) -> String {
    match &trial.answer.ending {
        Ending::Success => String::new(),
        Ending::Failure(status) => format!(" ({status})"),
        Ending::TooLate => " (took too long)".to_string(),
    }
}

fn shown(bytes: &[u8]) -> String {
    let beginning = bytes[..bytes.len().min(SHOWN)].escape_ascii();
    format!("{} bytes: {beginning}", bytes.len())
}

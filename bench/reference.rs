//! What the reference implementation's command writes, as the outcome of a call; of overlaps, which
//! no program writes, what its library gives.

use crate::work::{Answer, Case, Outcome, Verdict};
use reference_library::overlap;
use std::ffi::OsStr;
use std::io::{Error, Result};
use std::process::{Command, Stdio};

/// The ribbon program writes the ribbon and CR LF.
pub fn lay(command: &OsStr, case: &Case, room: usize) -> Result<Outcome> {
    let written = run(Command::new(command).arg("ribbon"), case)?;
    let ribbon = written
        .strip_suffix(b"\r\n")
        .ok_or_else(|| strange(&written))?;
    Ok(Outcome::written(ribbon, room))
}

/// The sheet program writes the sheet.
pub fn sheet(command: &OsStr, case: &Case, room: usize) -> Result<Outcome> {
    let written = run(Command::new(command).arg("sheet"), case)?;
    Ok(Outcome::written(&written, room))
}

/// The check program writes `held,` and the difference, or `missing,` and a code's number.
pub fn check(command: &OsStr, case: &Case, room: usize) -> Result<Outcome> {
    let file = std::env::temp_dir().join(format!("bench-ribbon-{}", std::process::id()));
    std::fs::write(&file, &case.ribbon)?;
    let written = run(
        Command::new(command).args([
            OsStr::new("check"),
            OsStr::new("/dev/stdin"),
            file.as_os_str(),
        ]),
        case,
    );
    std::fs::remove_file(&file)?;
    let written = written?;
    let line = String::from_utf8_lossy(&written);
    let verdict = match line.trim_end().split_once(',') {
        Some(("held", difference)) => Verdict {
            held: true,
            difference: difference.parse().map_err(|_| strange(&written))?,
            ..Verdict::default()
        },
        Some(("missing", number)) => Verdict {
            missing: number.parse().map_err(|_| strange(&written))?,
            ..Verdict::default()
        },
        _ => return Err(strange(&written)),
    };
    Ok(Outcome {
        answer: Answer::Verdict(verdict),
        ..Outcome::written(b"", room)
    })
}

/// The overlap from each face to each.
pub fn overlaps(_: &OsStr, case: &Case, room: usize) -> Result<Outcome> {
    let faces = case.faces();
    let each = faces.iter().flat_map(|a| faces.iter().map(move |b| (a, b)));
    let overlaps: Vec<u8> = each.map(|(a, b)| overlap(a, b) as u8).collect();
    Ok(Outcome::written(&overlaps, room))
}

fn strange(written: &[u8]) -> Error {
    Error::other(format!("it writes {:?}", String::from_utf8_lossy(written)))
}

/// The command with the order list on its standard input. No case is refused.
fn run(command: &mut Command, case: &Case) -> Result<Vec<u8>> {
    use std::io::Write;
    let mut child = command
        .stdin(Stdio::piped())
        .stdout(Stdio::piped())
        .spawn()?;
    child
        .stdin
        .take()
        .expect("a pipe")
        .write_all(&order_list(case))?;
    let written = child.wait_with_output()?.stdout;
    if written.is_empty() || written.starts_with(b"refused,") {
        return Err(strange(&written));
    }
    Ok(written)
}

/// The order list of a case: every name in quotes, each quote inside doubled.
pub fn order_list(case: &Case) -> Vec<u8> {
    let mut file = b"name,code\r\n".to_vec();
    for (name, code) in case.named().into_iter().zip(case.codes()) {
        let name = String::from_utf8_lossy(name).replace('"', "\"\"");
        file.extend(format!("\"{name}\",").bytes());
        file.extend(code);
        file.extend(b"\r\n");
    }
    file
}

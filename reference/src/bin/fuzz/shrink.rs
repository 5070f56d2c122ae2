//! A difference made small: parts are dropped while the program differs.

use crate::trial::{Case, Trial};
use reference::drive::files::Room;
use std::io;
use std::path::Path;
use std::time::{Duration, Instant};

/// A program that hangs takes long at each try.
const TIME: Duration = Duration::from_secs(60);

type Part = fn(&mut Case) -> &mut Vec<u8>;

pub fn shrunk(mut found: Trial, path: &Path) -> io::Result<Trial> {
    let (room, end) = (Room::of_worker(0)?, Instant::now() + TIME);
    let parts: [Part; 2] = [|case| &mut case.list, |case| &mut case.ribbon];
    for part in parts {
        // Halves, then quarters, and so on to single bytes.
        let mut size = part(&mut found.case).len().div_ceil(2);
        while size > 0 {
            found = without(found, part, size, |found, case| {
                if Instant::now() >= end {
                    return Ok(None);
                }
                let trial = Trial::of(found.program, path, case, &room)?;
                Ok(trial.differs().then_some(trial))
            })?;
            size /= 2;
        }
    }
    Ok(found)
}

/// Each part of this size dropped, where something is found without it too.
fn without(
    mut found: Trial,
    part: Part,
    size: usize,
    tried: impl Fn(&Trial, Case) -> io::Result<Option<Trial>>,
) -> io::Result<Trial> {
    let mut start = 0;
    while start < part(&mut found.case).len() {
        let mut case = found.case.clone();
        let bytes = part(&mut case);
        bytes.drain(start..bytes.len().min(start + size));
        match tried(&found, case)? {
            Some(smaller) => found = smaller,
            None => start += size,
        }
    }
    Ok(found)
}

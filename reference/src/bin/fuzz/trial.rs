//! One program run on one case, beside what the reference writes.

use reference::drive::files::{File, Room};
use reference::drive::programs::Program;
use reference::drive::run::{run, Answer};
use std::io;
use std::path::Path;
use std::time::Duration;

const TIME_LIMIT: Duration = Duration::from_secs(10);

/// An order list and a ribbon file; only the check looks at the second.
#[derive(Clone)]
pub struct Case {
    pub list: Vec<u8>,
    pub ribbon: Vec<u8>,
}

pub struct Trial {
    pub program: Program,
    pub case: Case,
    pub expected: Vec<u8>,
    pub answer: Answer,
}

impl Trial {
    pub fn of(program: Program, path: &Path, case: Case, room: &Room) -> io::Result<Trial> {
        let answer = answer(program, path, &case, room)?;
        Ok(Trial {
            program,
            expected: program.expected(&case.list, &case.ribbon),
            case,
            answer,
        })
    }

    pub fn differs(&self) -> bool {
        !self.answer.is(&self.expected)
    }
}

fn answer(program: Program, path: &Path, case: &Case, room: &Room) -> io::Result<Answer> {
    if program != Program::Check {
        return run(path, &[], &[&case.list], TIME_LIMIT);
    }
    let files = [&case.list, &case.ribbon].map(|bytes| File::Holding(bytes.clone()));
    run(path, &room.lay_out(&files)?, &[], TIME_LIMIT)
}

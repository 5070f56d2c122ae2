//! What came of a case, roughly: a case of a new class is worth changing.

use crate::changes::LIMITS;
use crate::trial::Trial;
use reference::drive::outcomes::{outcome_of, Outcome};
use reference::drive::programs::Program;

pub type Class = (Program, Outcome, Ways, [Size; 5]);

/// Whether a sheet has the way given, turned, either; none where there is no sheet.
pub type Ways = [bool; 3];

/// Exact where it is small or at a limit, else to a power of two.
#[derive(Clone, Copy, Debug, PartialEq, Eq, PartialOrd, Ord)]
pub enum Size {
    Exact(usize),
    About(usize),
}

const SMALL: usize = 4;

fn size(number: usize) -> Size {
    let about_129 = (127..=131).contains(&number);
    match number <= SMALL || about_129 || LIMITS.contains(&number) {
        true => Size::Exact(number),
        false => Size::About(number.next_power_of_two()),
    }
}

pub fn class(trial: &Trial) -> Class {
    let (case, expected) = (&trial.case, &trial.expected);
    let ribbon = match trial.program {
        Program::Check => case.ribbon.len(),
        _ => 0,
    };
    let quotes = case.list.iter().filter(|byte| **byte == b'"').count();
    let sizes = [
        last_number(expected),
        expected.len(),
        case.list.len(),
        ribbon,
        quotes,
    ];
    let outcome = outcome_of(expected);
    (trial.program, outcome, ways(expected), sizes.map(size))
}

/// Names may hold these words too; roughly is enough.
fn ways(expected: &[u8]) -> Ways {
    let text = String::from_utf8_lossy(expected);
    [",given,", ",turned,", ",either,"].map(|word| text.contains(word))
}

/// The row, the difference or the code of an answer in one line, the last
/// number of places of a sheet; 0 of a ribbon.
fn last_number(expected: &[u8]) -> usize {
    let text = String::from_utf8_lossy(expected);
    let last = text.trim_end().rsplit([',', '-']).next();
    last.and_then(|word| word.parse().ok()).unwrap_or(0)
}

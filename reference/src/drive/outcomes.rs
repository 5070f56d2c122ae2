//! What came of an input, by what the reference writes.

use std::fmt;

#[derive(Clone, Copy, Debug, PartialEq, Eq, PartialOrd, Ord)]
pub enum Outcome {
    /// A ribbon or a sheet.
    Accepted,
    /// Held with a difference below, at or above zero.
    HeldBelow,
    HeldAt,
    HeldAbove,
    Missing,
    /// The number of a refused order list.
    Refused(u64),
    /// The number of a refused ribbon file.
    RibbonRefused(u64),
}

use Outcome::*;

/// Ribbons have capitals alone, and a sheet begins with its heading.
pub fn outcome_of(output: &[u8]) -> Outcome {
    let text = String::from_utf8_lossy(output);
    let words: Vec<&str> = text.trim_end().split(',').collect();
    match words[..] {
        ["held", "0"] => HeldAt,
        ["held", difference] if difference.starts_with('-') => HeldBelow,
        ["held", _] => HeldAbove,
        ["missing", _] => Missing,
        ["refused", "8", "0"] => RibbonRefused(8),
        ["refused", "15", _] => RibbonRefused(15),
        ["refused", number, _] => Refused(number.parse().unwrap_or(0)),
        _ => Accepted,
    }
}

/// A refusal by its number, the others in a word.
impl fmt::Display for Outcome {
    fn fmt(&self, out: &mut fmt::Formatter) -> fmt::Result {
        match self {
            Accepted => write!(out, "accepted"),
            HeldBelow => write!(out, "held below zero"),
            HeldAt => write!(out, "held at zero"),
            HeldAbove => write!(out, "held above zero"),
            Missing => write!(out, "missing"),
            Refused(number) => write!(out, "number {number}"),
            RibbonRefused(number) => write!(out, "number {number} for the ribbon"),
        }
    }
}

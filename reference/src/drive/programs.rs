//! The three programs, and what is expected of each.

use super::outcomes::Outcome::{self, *};
use crate::{check_output, ribbon_output, sheet_output};
use std::fmt;

#[derive(Clone, Copy, Debug, PartialEq, Eq, PartialOrd, Ord)]
pub enum Program {
    Ribbon,
    Sheet,
    Check,
}

impl Program {
    pub fn named(word: &str) -> Option<Program> {
        match word {
            "ribbon" => Some(Program::Ribbon),
            "sheet" => Some(Program::Sheet),
            "check" => Some(Program::Check),
            _ => None,
        }
    }

    /// What the reference writes. Only the check looks at the ribbon file.
    pub fn expected(self, list: &[u8], ribbon_file: &[u8]) -> Vec<u8> {
        match self {
            Program::Ribbon => ribbon_output(list),
            Program::Sheet => sheet_output(list),
            Program::Check => check_output(list, ribbon_file),
        }
    }

    /// Everything that can come of an input. A list that was read breaks no
    /// rule and its room suffices: no 12 or 13. 14 is retired.
    pub fn outcomes(self) -> Vec<Outcome> {
        let accepted = match self {
            Program::Check => &[HeldBelow, HeldAt, HeldAbove, Missing][..],
            _ => &[Accepted],
        };
        let ribbon = match self {
            Program::Check => &[RibbonRefused(8), RibbonRefused(15)][..],
            _ => &[],
        };
        let list: Vec<Outcome> = (1..=11).map(Refused).collect();
        [accepted, &list, ribbon].concat()
    }
}

/// The word that names it.
impl fmt::Display for Program {
    fn fmt(&self, out: &mut fmt::Formatter) -> fmt::Result {
        out.pad(match self {
            Program::Ribbon => "ribbon",
            Program::Sheet => "sheet",
            Program::Check => "check",
        })
    }
}

//! The table of document 01, "Refused orders".

pub const LONG_FILE: u8 = 1;
pub const BROKEN_ROW: u8 = 2;
pub const WRONG_WIDTH: u8 = 3;
pub const WRONG_HEADING: u8 = 4;
pub const BAD_NAME: u8 = 5;
pub const NO_BANDS: u8 = 6;
pub const LONG_CODE: u8 = 7;
pub const UNKNOWN_COLOUR: u8 = 8;
pub const NAME_TAKEN: u8 = 9;
pub const LIST_FULL: u8 = 10;
pub const EMPTY_LIST: u8 = 11;
pub const FALSE_LIST: u8 = 12;
pub const SHORT_BUFFER: u8 = 13;
pub const LONG_RIBBON: u8 = 15;

/// No refusal has the number 0, nor 14, which is retired and not to be used
/// again: their words are empty.
const WORDS: [&str; 16] = [
    "",
    "long file",
    "broken row",
    "wrong width",
    "wrong heading",
    "bad name",
    "no bands",
    "long code",
    "unknown colour",
    "name taken",
    "list full",
    "empty list",
    "false list",
    "short buffer",
    "",
    "long ribbon",
];

/// Why a call was refused, and the row of the file it was refused for.
#[derive(Clone, Copy, Debug, PartialEq, Eq)]
pub struct Refusal {
    pub number: u8,
    /// Counted from 1, the heading being row 1; 0 where no row is meant.
    pub row: u32,
}

impl Refusal {
    /// A refusal of the whole input, which has no row.
    pub(crate) fn whole(number: u8) -> Refusal {
        Refusal { number, row: 0 }
    }

    /// The table's word for the number; empty for a number not in the table.
    pub fn word(&self) -> &'static str {
        WORDS.get(usize::from(self.number)).copied().unwrap_or("")
    }
}

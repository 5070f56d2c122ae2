//! The bounds of document 01, and what a band and a name are.

use std::ops::RangeInclusive;

pub const FILE_BYTES: usize = 16_384;
pub const NAME_BYTES: usize = 24;
pub const CODE_BANDS: usize = 64;
pub const CODES: usize = 128;
pub const RIBBON_BANDS: usize = 16_384;

/// The bytes of a name; a file's fields have these, CR and LF alone.
pub const PRINTED: RangeInclusive<u8> = 0x20..=0x7E;

pub fn are_bands(bytes: &[u8]) -> bool {
    bytes.iter().all(u8::is_ascii_uppercase)
}

/// Length and bytes only: that a name is used once is seen from its list.
pub fn is_name(bytes: &[u8]) -> bool {
    (1..=NAME_BYTES).contains(&bytes.len()) && bytes.iter().all(|byte| PRINTED.contains(byte))
}

//! Checking a supplied ribbon.

use crate::lay::computed;
use crate::lend::room;
use crate::list::codes_of;
use crate::place::{places_on, Place};
use crate::refusal::{Refusal, LONG_RIBBON, UNKNOWN_COLOUR};
use crate::rules::{are_bands, RIBBON_BANDS};

/// The check's answer.
#[derive(Clone, Copy, Debug, PartialEq, Eq)]
pub enum Checked {
    /// The lowest code number that has no place.
    Missing(u32),
    /// The supplied length minus the length of the computed ribbon.
    Held(i32),
}

/// Checks a supplied ribbon and, where it answers held, fills a place record
/// for each listed code.
pub fn check_ribbon(
    bands: &[u8],
    lengths: &[u16],
    ribbon: &[u8],
    places: &mut [Place],
) -> Result<Checked, Refusal> {
    let codes = codes_of(bands, lengths)?;
    if ribbon.len() > RIBBON_BANDS {
        return Err(Refusal::whole(LONG_RIBBON));
    }
    if !are_bands(ribbon) {
        return Err(Refusal::whole(UNKNOWN_COLOUR));
    }
    let (computed, _) = computed(&codes);
    let records = match places_on(ribbon, &codes) {
        Ok(records) => records,
        Err(code) => return Ok(Checked::Missing(code)),
    };
    room(places, records.len())?.copy_from_slice(&records);
    // Both lengths are at most 16,384.
    Ok(Checked::Held(ribbon.len() as i32 - computed.len() as i32))
}

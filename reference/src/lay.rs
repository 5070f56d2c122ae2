//! Laying out a ribbon.

use crate::drop::kept;
use crate::join::joined;
use crate::lend::room;
use crate::list::codes_of;
use crate::refusal::Refusal;

/// A ribbon that was laid out.
#[derive(Clone, Copy, Debug, PartialEq, Eq)]
pub struct Laid {
    /// Bands written to the lent buffer.
    pub length: usize,
    pub saved: usize,
}

/// Lays out the ribbon of a list.
pub fn lay_ribbon(bands: &[u8], lengths: &[u16], ribbon: &mut [u8]) -> Result<Laid, Refusal> {
    let codes = codes_of(bands, lengths)?;
    let (computed, saved) = computed(&codes);
    room(ribbon, computed.len())?.copy_from_slice(&computed);
    Ok(Laid {
        length: computed.len(),
        saved,
    })
}

/// The computed ribbon of a list's codes and what it saved.
pub fn computed(codes: &[&[u8]]) -> (Vec<u8>, usize) {
    joined(&kept(codes))
}

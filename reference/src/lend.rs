//! Lent result buffers.

use crate::refusal::{Refusal, SHORT_BUFFER};

/// The front of a lent buffer, as long as the result. Calls ask for all the
/// room they need before they write, so a refused call changes nothing.
pub fn room<T>(lent: &mut [T], result: usize) -> Result<&mut [T], Refusal> {
    lent.get_mut(..result).ok_or(Refusal::whole(SHORT_BUFFER))
}

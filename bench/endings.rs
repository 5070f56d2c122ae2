//! Overlaps found ending by ending, the longest first, each compared band by band: what one pass
//! stands in place of.

use crate::same_method::agree;
use crate::work::{each_overlap, Answer, Case};

pub fn overlaps(case: &Case, out: &mut [u8]) -> Answer {
    each_overlap(case, out, overlap)
}

fn overlap(a: &[u8], a_turned: bool, b: &[u8], b_turned: bool) -> usize {
    let mut k = a.len().min(b.len());
    while k > 0 && !agree(a, a_turned, b, b_turned, k) {
        k -= 1;
    }
    k
}

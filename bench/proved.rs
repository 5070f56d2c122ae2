//! The proved library, linked from its archive, and the routines that are timed alone, from theirs.

#[path = "../examples/rust/ribbons.rs"]
pub mod ribbons;

use crate::work::{each_overlap, Answer, Case, Verdict};

#[link(name = "matching_c", kind = "static")]
extern "C" {
    fn matching_overlap(
        a: *const u8,
        a_count: usize,
        a_turned: bool,
        b: *const u8,
        b_count: usize,
        b_turned: bool,
    ) -> usize;
}

fn overlap(a: &[u8], a_turned: bool, b: &[u8], b_turned: bool) -> usize {
    // A slice passes as a pointer and a count.
    unsafe { matching_overlap(a.as_ptr(), a.len(), a_turned, b.as_ptr(), b.len(), b_turned) }
}

pub fn overlaps(case: &Case, out: &mut [u8]) -> Answer {
    each_overlap(case, out, overlap)
}

pub fn lay(case: &Case, ribbon: &mut [u8]) -> Answer {
    Answer::Length(ribbons::lay_ribbon(&case.bands, &case.lengths, ribbon).bands)
}

pub fn check(case: &Case, _: &mut [u8]) -> Answer {
    let checked = ribbons::check_ribbon(&case.bands, &case.lengths, &case.ribbon);
    Answer::Verdict(Verdict {
        refused: checked.refused,
        held: checked.held,
        missing: checked.missing,
        difference: checked.difference,
    })
}

pub fn sheet(case: &Case, out: &mut [u8]) -> Answer {
    let sheet = ribbons::write_sheet(&case.bands, &case.lengths, &case.names, &case.sizes, out);
    Answer::Length(sheet.bytes)
}

//! Dropping contained codes.

use crate::place::way_from;

/// The codes that are kept, in list order.
pub fn kept<'a>(codes: &[&'a [u8]]) -> Vec<&'a [u8]> {
    let stay = (0..codes.len()).filter(|i| !is_dropped(*i, codes));
    stay.map(|i| codes[i]).collect()
}

fn is_dropped(i: usize, codes: &[&[u8]]) -> bool {
    let code = codes[i];
    codes.iter().enumerate().any(|(j, other)| {
        let longer = other.len() > code.len();
        let lower = other.len() == code.len() && j < i;
        (longer || lower) && way_from(other, code, 0).is_some()
    })
}

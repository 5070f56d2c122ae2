//! Lists handed over by other code.

use crate::refusal::{Refusal, FALSE_LIST};
use crate::rules::{are_bands, is_name, CODES, CODE_BANDS};

/// The codes of a list, each a part of the run of bands.
pub fn codes_of<'a>(bands: &'a [u8], lengths: &[u16]) -> Result<Vec<&'a [u8]>, Refusal> {
    let count_is_right = (1..=CODES).contains(&lengths.len());
    let codes = count_is_right.then(|| parts(bands, lengths)).flatten();
    codes
        .filter(|codes| codes.iter().all(|code| is_code(code)))
        .ok_or(Refusal::whole(FALSE_LIST))
}

/// The names that come with a list of so many codes.
pub fn names_of<'a>(
    names: &'a [u8],
    sizes: &[u16],
    codes: usize,
) -> Result<Vec<&'a [u8]>, Refusal> {
    let one_a_code = sizes.len() == codes;
    let names = one_a_code.then(|| parts(names, sizes)).flatten();
    names
        .filter(|names| names.iter().all(|name| is_name(name)) && used_once(names))
        .ok_or(Refusal::whole(FALSE_LIST))
}

fn is_code(part: &[u8]) -> bool {
    (1..=CODE_BANDS).contains(&part.len()) && are_bands(part)
}

fn used_once(names: &[&[u8]]) -> bool {
    let mut sorted = names.to_vec();
    sorted.sort_unstable();
    sorted.windows(2).all(|pair| pair[0] != pair[1])
}

/// The run in parts of these lengths; `None` unless they add up to the run.
fn parts<'a>(run: &'a [u8], lengths: &[u16]) -> Option<Vec<&'a [u8]>> {
    let mut rest = run;
    let mut parts = Vec::new();
    for length in lengths {
        let length = usize::from(*length);
        parts.push(rest.get(..length)?);
        rest = &rest[length..];
    }
    rest.is_empty().then_some(parts)
}

//! Parts of a file that a change takes hold of.

use reference::drive::chance::Chance;
use std::ops::Range;

const SHORT: usize = 8;

/// Any part, a short one, or whole rows or fields. It may be empty.
pub fn span(chance: &mut Chance, bytes: &[u8]) -> Range<usize> {
    match chance.below(5) {
        0 => any(chance, bytes.len()),
        1 | 2 => short(chance, bytes.len()),
        3 => between_edges(chance, bytes, b",\"\r\n"),
        _ => rows(chance, bytes),
    }
}

pub fn rows(chance: &mut Chance, bytes: &[u8]) -> Range<usize> {
    between_edges(chance, bytes, b"\n")
}

fn any(chance: &mut Chance, length: usize) -> Range<usize> {
    let start = chance.between(0, length);
    start..chance.between(start, length)
}

fn short(chance: &mut Chance, length: usize) -> Range<usize> {
    let start = chance.between(0, length);
    start..length.min(start + chance.between(1, SHORT))
}

/// From just behind one of these bytes to just behind a later one, where the
/// beginning and the end count as well; mostly a near one.
fn between_edges(chance: &mut Chance, bytes: &[u8], edges: &[u8]) -> Range<usize> {
    let behind = (1..=bytes.len()).filter(|i| edges.contains(&bytes[i - 1]));
    let mut places: Vec<usize> = [0].into_iter().chain(behind).collect();
    places.push(bytes.len());
    let first = chance.below(places.len() - 1);
    let most = match chance.one_in(4) {
        true => places.len() - 1,
        false => first + 1,
    };
    places[first]..places[chance.between(first + 1, most)]
}

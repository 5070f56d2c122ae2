//! Starts looked at one by one, band by band, as document 01's prose has it,
//! and what the library gives.

use crate::common::List;
use reference::way_from;
use reference::Way::{self, Either, Given, Turned};

/// All the bands of a way follow one another from this start.
fn stands(row: &str, way: &str, start: usize) -> bool {
    let row: Vec<char> = row.chars().collect();
    let follows = |(i, band): (usize, char)| row.get(start + i) == Some(&band);
    way.chars().enumerate().all(follows)
}

pub fn turned(code: &str) -> String {
    code.chars().rev().collect()
}

/// Each band is the one that stands as far from the other end.
pub fn looks_alike(code: &str) -> bool {
    let bands: Vec<char> = code.chars().collect();
    let last = bands.len() - 1;
    (0..=last).all(|i| bands[i] == bands[last - i])
}

/// Every start at which either way stands, with the way.
pub fn all_ways(row: &str, code: &str) -> Vec<Way> {
    let at = |start: usize| {
        let way = match stands(row, code, start) {
            true if looks_alike(code) => Either,
            true => Given,
            false if stands(row, &turned(code), start) => Turned,
            false => return None,
        };
        Some(way(start as u32))
    };
    (0..row.len()).filter_map(at).collect()
}

pub fn from(row: &str, code: &str, first: u32) -> Option<Way> {
    way_from(row.as_bytes(), code.as_bytes(), first)
}

pub const HEADING: &str = "name,way,start,bands,places";

/// The rows of the sheet of these codes, under the names N0, N1 and so on.
pub fn sheet(codes: &[&str]) -> Vec<String> {
    let text = String::from_utf8(List::of(codes).sheet_bytes()).unwrap();
    let rows = text.strip_suffix("\r\n").expect("each row ends in CR LF");
    rows.split("\r\n").map(str::to_string).collect()
}

//! Ribbons on both sides of 16,384 bands.

use crate::codes::Code;
use crate::merges::{all_but_one, arranged, merged};
use crate::supplied::{no_band_byte, BANDS};
use reference::drive::chance::Chance;

pub const MOST_RIBBON_BANDS: usize = 16_384;

pub fn about_the_most(chance: &mut Chance, codes: &[Code]) -> Vec<u8> {
    let length = about(chance);
    filled(chance, codes, length)
}

fn about(chance: &mut Chance) -> usize {
    MOST_RIBBON_BANDS - 1 + chance.one_of(&[0, 1, 1, 2])
}

/// A row on which all codes stand, filled up to so many bands.
fn filled(chance: &mut Chance, codes: &[Code], length: usize) -> Vec<u8> {
    let row = merged(&arranged(chance, codes));
    let more = length - row.len();
    let filler = match chance.one_in(2) {
        true => vec![chance.one_of(&BANDS); more],
        false => chance.some_of(&codes.concat(), more),
    };
    let somewhere = chance.between(0, more);
    let (before, behind) = filler.split_at(chance.one_of(&[0, somewhere, more]));
    [before, &row, behind].concat()
}

/// One code stands nowhere but at the end, or lacks its last band there.
pub fn at_the_very_end(chance: &mut Chance, codes: &[Code]) -> Vec<u8> {
    let (row, one) = all_but_one(chance, codes);
    let other = BANDS.iter().find(|band| !one.contains(band));
    let length = about(chance);
    let mut end = arranged(chance, &[one]).concat();
    if chance.one_in(3) {
        end.pop();
    }
    let filler = vec![*other.unwrap_or(&b'A'); length - row.len() - end.len()];
    [row, filler, end].concat()
}

/// With 16,385 bytes it is too long, whatever they are.
pub fn no_band_in_most(chance: &mut Chance, codes: &[Code]) -> Vec<u8> {
    let mut row = about_the_most(chance, codes);
    let (last, somewhere) = (row.len() - 1, chance.below(row.len()));
    let at = chance.one_of(&[0, last, last, somewhere]);
    row[at] = no_band_byte(chance);
    row
}

/// Who reads no further than a CR LF could reach takes it for the last.
pub fn more_behind_most(chance: &mut Chance, codes: &[Code]) -> Vec<u8> {
    let length = MOST_RIBBON_BANDS - chance.below(2);
    let more = chance.one_of(&[&b"A"[..], b"AB", b"\r", b"\n", b"\r\n", &[b'A'; 100]]);
    [&filled(chance, codes, length), &b"\r\n"[..], more].concat()
}

/// Past where a number of two bytes begins anew, too.
pub fn far_over_most(chance: &mut Chance, codes: &[Code]) -> Vec<u8> {
    let length = chance.one_of(&[
        16_386, 16_387, 16_388, 20_000, 32_768, 65_536, 65_543, 81_920, 131_072,
    ]);
    filled(chance, codes, length)
}

//! Ribbons to be checked against a list's codes, fit and unfit.

use crate::codes::{few, one_band_changed, turned, Code, MOST_BANDS, MOST_CODES};
use crate::kinds::{kind, Kind};
use crate::long_ribbons::*;
use crate::merges::{all_but_one, arranged, merged, shortest, with};
use crate::orders::{order_list, MOST_NAME_BYTES};
use reference::drive::chance::Chance;
use reference::{lay_ribbon, read_orders};

type Make = fn(&mut Chance, &[Code]) -> Vec<u8>;

pub const BANDS: [u8; 26] = *b"ABCDEFGHIJKLMNOPQRSTUVWXYZ";
const MOST_LIST_BANDS: usize = MOST_CODES * MOST_BANDS;

/// Ties are settled otherwise where the codes come in another order.
pub const SHORTEST: Kind<Make> = kind(
    "its own in other orders, the shortest",
    140,
    |chance, codes| shortest(chance, codes, laid),
);

pub const RIBBONS: [Kind<Make>; 29] = [
    kind("its own ribbon", 70, |_, codes| laid(codes)),
    kind("its own, turned", 50, |_, codes| turned(&laid(codes))),
    kind("its own with bands before", 30, bands_before),
    kind("its own with bands behind", 30, bands_behind),
    kind("its own, a band changed", 50, band_changed),
    kind("its own, a band left out", 30, band_left_out),
    kind("its own, a band put in", 30, band_put_in),
    kind("its own, cut off", 40, cut_off),
    kind("codes merged", 40, |chance, codes| {
        merged(&arranged(chance, codes))
    }),
    kind("codes merged, the shortest of some", 40, |chance, codes| {
        shortest(chance, codes, merged)
    }),
    SHORTEST,
    kind("codes merged, all turned", 30, all_turned),
    kind("codes end to end", 30, |chance, codes| {
        arranged(chance, codes).concat()
    }),
    kind("one code turned alone", 40, one_turned),
    kind("all codes but one", 70, |chance, codes| {
        all_but_one(chance, codes).0
    }),
    kind("one code cut short behind", 25, cut_short_behind),
    kind("one code cut short before", 25, cut_short_before),
    kind("one code with a band changed", 20, one_changed),
    kind("some bands", 30, some_bands),
    kind("no bands", 15, |_, _| Vec::new()),
    kind("about 16,384 bands", 30, about_the_most),
    kind("a code at the end of about 16,384", 30, at_the_very_end),
    kind("about 16,384 bytes, one no band", 20, no_band_in_most),
    kind("16,384 bands, CR LF and more", 10, more_behind_most),
    kind("far over 16,384 bands", 5, far_over_most),
    kind("a byte that is no band", 45, no_band),
    kind("a line break inside", 15, line_break),
    kind("in lower case", 5, |_, codes| {
        laid(codes).to_ascii_lowercase()
    }),
    kind("an order list", 5, order_list),
];

/// What follows the ribbon in its file. One CR LF alone is no part of it.
pub const ENDINGS: [Kind<&[u8]>; 8] = [
    kind("no line break", 450, b""),
    kind("CR LF", 450, b"\r\n"),
    kind("CR LF twice", 20, b"\r\n\r\n"),
    kind("CR alone", 20, b"\r"),
    kind("LF alone", 30, b"\n"),
    kind("LF CR", 10, b"\n\r"),
    kind("CR CR LF", 10, b"\r\r\n"),
    kind("CR LF and a blank", 10, b"\r\n "),
];

/// The codes of a list, or some codes for a list that is refused.
pub fn codes_for(chance: &mut Chance, list: &[u8]) -> Vec<Code> {
    codes_of(list).unwrap_or_else(|| few(chance))
}

fn codes_of(list: &[u8]) -> Option<Vec<Code>> {
    let (mut bands, mut names) = ([0; MOST_LIST_BANDS], [0; MOST_CODES * MOST_NAME_BYTES]);
    let (mut lengths, mut sizes) = ([0; MOST_CODES], [0; MOST_CODES]);
    let read = read_orders(list, &mut bands, &mut lengths, &mut names, &mut sizes).ok()?;
    let mut rest = &bands[..read.bands];
    let code = |length: &u16| {
        let (code, after) = rest.split_at(usize::from(*length));
        rest = after;
        code.to_vec()
    };
    Some(lengths[..read.codes].iter().map(code).collect())
}

/// The ribbon that the reference lays out.
fn laid(codes: &[Code]) -> Vec<u8> {
    let lengths: Vec<u16> = codes.iter().map(|code| code.len() as u16).collect();
    let mut ribbon = vec![0; MOST_LIST_BANDS];
    let laid = lay_ribbon(&codes.concat(), &lengths, &mut ribbon).expect("the codes were read");
    ribbon.truncate(laid.length);
    ribbon
}

/// Bands of the codes, and now and then any.
fn bands_like(chance: &mut Chance, codes: &[Code], count: usize) -> Vec<u8> {
    match chance.one_in(4) {
        true => chance.some_of(&BANDS, count),
        false => chance.some_of(&codes.concat(), count),
    }
}

fn some_bands(chance: &mut Chance, codes: &[Code]) -> Vec<u8> {
    let count = chance.one_of(&[1, 2, 3, 10, 30, 100, 1_500]);
    bands_like(chance, codes, count)
}

fn bands_before(chance: &mut Chance, codes: &[Code]) -> Vec<u8> {
    [some_bands(chance, codes), laid(codes)].concat()
}

fn bands_behind(chance: &mut Chance, codes: &[Code]) -> Vec<u8> {
    [laid(codes), some_bands(chance, codes)].concat()
}

fn band_changed(chance: &mut Chance, codes: &[Code]) -> Vec<u8> {
    one_band_changed(chance, &BANDS, &laid(codes))
}

fn band_left_out(chance: &mut Chance, codes: &[Code]) -> Vec<u8> {
    let mut row = laid(codes);
    row.remove(chance.below(row.len()));
    row
}

fn band_put_in(chance: &mut Chance, codes: &[Code]) -> Vec<u8> {
    let band = bands_like(chance, codes, 1);
    inserted(chance, laid(codes), &band)
}

/// A band or more off one of its ends.
fn cut_off(chance: &mut Chance, codes: &[Code]) -> Vec<u8> {
    let mut row = laid(codes);
    let off = chance.one_of(&[1, 1, 1, 2, 3, row.len()]).min(row.len());
    match chance.one_in(2) {
        true => row.drain(..off),
        false => row.drain(row.len() - off..),
    };
    row
}

fn all_turned(chance: &mut Chance, codes: &[Code]) -> Vec<u8> {
    let mut turned: Vec<Code> = codes.iter().map(|code| turned(code)).collect();
    chance.shuffle(&mut turned);
    merged(&turned)
}

/// The other codes some way round, and this one as it isn't listed.
fn one_turned(chance: &mut Chance, codes: &[Code]) -> Vec<u8> {
    let (row, one) = all_but_one(chance, codes);
    with(&row, &turned(&one))
}

/// The last code lacks a band where the row ends.
fn cut_short_behind(chance: &mut Chance, codes: &[Code]) -> Vec<u8> {
    let (row, one) = all_but_one(chance, codes);
    let one = &arranged(chance, &[one])[0];
    with(&row, &one[..one.len() - 1])
}

/// The first code lacks a band where the row begins.
fn cut_short_before(chance: &mut Chance, codes: &[Code]) -> Vec<u8> {
    turned(&cut_short_behind(chance, codes))
}

fn one_changed(chance: &mut Chance, codes: &[Code]) -> Vec<u8> {
    let (row, one) = all_but_one(chance, codes);
    with(&row, &one_band_changed(chance, &BANDS, &one))
}

fn inserted(chance: &mut Chance, mut row: Vec<u8>, bytes: &[u8]) -> Vec<u8> {
    let at = chance.between(0, row.len());
    row.splice(at..at, bytes.iter().copied());
    row
}

/// On a row that is fit without it, or in place of one of its bands.
fn no_band(chance: &mut Chance, codes: &[Code]) -> Vec<u8> {
    let mut row = laid(codes);
    let byte = no_band_byte(chance);
    match chance.below(4) {
        0 => [&[byte], &row[..]].concat(),
        1 => [&row[..], &[byte]].concat(),
        2 => inserted(chance, row, &[byte]),
        _ => {
            let at = chance.below(row.len());
            row[at] = byte;
            row
        }
    }
}

/// Mostly next to the bands, or a band but for one bit.
pub fn no_band_byte(chance: &mut Chance) -> u8 {
    let bytes: Vec<u8> = (0..=0xFF).filter(|byte| !BANDS.contains(byte)).collect();
    match chance.below(4) {
        0 => chance.one_of(&bytes),
        _ => chance.one_of(b"@@@[[[`az{\x01\x1A\xC1\xDA \0"),
    }
}

/// Before the last band, so that no line break ends the row.
fn line_break(chance: &mut Chance, codes: &[Code]) -> Vec<u8> {
    let mut row = laid(codes);
    let last = row.pop();
    let line_break = chance.one_of(&[&b"\r\n"[..], b"\r\n", b"\r", b"\n", b"\n\r"]);
    row = inserted(chance, row, line_break);
    row.extend(last);
    row
}

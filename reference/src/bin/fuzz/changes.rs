//! Changes of bytes. None knows what the bytes say, but most take hold of
//! places where a reader decides something.

use crate::spans::{rows, span};
use reference::drive::chance::Chance;

/// Of a file, with another to take from.
type Change = fn(&mut Chance, &[u8], &[u8]) -> Vec<u8>;

pub const CHANGES: [Change; 21] = [
    bit_flipped,
    byte_set,
    byte_of_any_value,
    band_changed,
    band_changed,
    bytes_inserted,
    words_inserted,
    part_left_out,
    part_doubled,
    part_copied,
    parts_swapped,
    parts_swapped,
    part_turned,
    part_of_another,
    spliced,
    row_ends_changed,
    row_end_changed,
    cut_off,
    stretched_to_a_limit,
    byte_repeated,
    rows_again_renamed,
];

/// Well past every limit.
const MOST_BYTES: usize = 40_000;
/// Lengths at which something begins to be refused, and their neighbours.
pub const LIMITS: [usize; 11] = [
    64, 65, 8_192, 8_193, 8_194, 16_383, 16_384, 16_385, 16_386, 16_387, 16_388,
];
/// How often a byte stands in a row: about the limits of names and codes.
const RUNS: [usize; 10] = [2, 3, 23, 24, 25, 63, 64, 65, 128, 300];
const TELLING: &[u8] = b"\0\t\n\n\r\r\x1F  !\"\"\"\",,,@AZ[a~\x7F\x80\xFF";
const ROW_ENDS: [&[u8]; 8] = [
    b"\n",
    b"\r",
    b"\n\r",
    b"\r\r\n",
    b"\r\n\r\n",
    b"\r\n\n",
    b"\"\r\n",
    b"",
];
const WORDS: [&[u8]; 9] = [
    b"\r\n",
    b"\"\"",
    b"\"\"\"",
    b"\",\"",
    b"\"\r\n\"",
    b"name,code\r\n",
    b"\r\n,",
    b",A\r\n",
    b"\xEF\xBB\xBF",
];

/// One change or several, one after the other.
pub fn changed(chance: &mut Chance, bytes: &[u8], other: &[u8]) -> Vec<u8> {
    let mut bytes = bytes.to_vec();
    for _ in 0..1 << chance.below(3) {
        bytes = chance.one_of(&CHANGES)(chance, &bytes, other);
        bytes.truncate(MOST_BYTES);
    }
    bytes
}

/// The file with other bytes from start to end.
fn replaced(bytes: &[u8], start: usize, end: usize, by: &[u8]) -> Vec<u8> {
    [&bytes[..start], by, &bytes[end..]].concat()
}

fn inserted(chance: &mut Chance, bytes: &[u8], by: &[u8]) -> Vec<u8> {
    let at = chance.between(0, bytes.len());
    replaced(bytes, at, at, by)
}

fn one_byte(chance: &mut Chance, bytes: &[u8], change: impl Fn(u8) -> Vec<u8>) -> Vec<u8> {
    if bytes.is_empty() {
        return Vec::new();
    }
    let at = chance.below(bytes.len());
    replaced(bytes, at, at + 1, &change(bytes[at]))
}

fn bit_flipped(chance: &mut Chance, bytes: &[u8], _: &[u8]) -> Vec<u8> {
    let bit = 1 << chance.below(8);
    one_byte(chance, bytes, |byte| vec![byte ^ bit])
}

fn byte_set(chance: &mut Chance, bytes: &[u8], _: &[u8]) -> Vec<u8> {
    let byte = chance.one_of(TELLING);
    one_byte(chance, bytes, |_| vec![byte])
}

fn byte_of_any_value(chance: &mut Chance, bytes: &[u8], _: &[u8]) -> Vec<u8> {
    let byte = chance.below(256) as u8;
    one_byte(chance, bytes, |_| vec![byte])
}

/// Another band for some band, so that a list stays one more often.
fn band_changed(chance: &mut Chance, bytes: &[u8], _: &[u8]) -> Vec<u8> {
    let is_band = |i: &usize| bytes[*i].is_ascii_uppercase();
    let bands: Vec<usize> = (0..bytes.len()).filter(is_band).collect();
    if bands.is_empty() {
        return bytes.to_vec();
    }
    let at = chance.one_of(&bands);
    let band = match chance.one_in(4) {
        true => b'A' + chance.below(26) as u8,
        false => bytes[chance.one_of(&bands)],
    };
    replaced(bytes, at, at + 1, &[band])
}

fn bytes_inserted(chance: &mut Chance, bytes: &[u8], _: &[u8]) -> Vec<u8> {
    let count = chance.between(1, 3);
    let more = chance.some_of(TELLING, count);
    inserted(chance, bytes, &more)
}

fn words_inserted(chance: &mut Chance, bytes: &[u8], _: &[u8]) -> Vec<u8> {
    let word = chance.one_of(&WORDS);
    inserted(chance, bytes, word)
}

fn part_left_out(chance: &mut Chance, bytes: &[u8], _: &[u8]) -> Vec<u8> {
    let part = span(chance, bytes);
    replaced(bytes, part.start, part.end, b"")
}

fn part_doubled(chance: &mut Chance, bytes: &[u8], _: &[u8]) -> Vec<u8> {
    let part = span(chance, bytes);
    replaced(bytes, part.end, part.end, &bytes[part])
}

fn part_copied(chance: &mut Chance, bytes: &[u8], _: &[u8]) -> Vec<u8> {
    let part = span(chance, bytes);
    inserted(chance, bytes, &bytes[part])
}

/// Where the two overlap, what they have alone is swapped.
fn parts_swapped(chance: &mut Chance, bytes: &[u8], _: &[u8]) -> Vec<u8> {
    let (one, two) = match chance.one_in(2) {
        true => (rows(chance, bytes), rows(chance, bytes)),
        false => (span(chance, bytes), span(chance, bytes)),
    };
    let mut ends = [one.start, one.end, two.start, two.end];
    ends.sort_unstable();
    let [a, b, c, d] = ends;
    let middle = [&bytes[c..d], &bytes[b..c], &bytes[a..b]].concat();
    replaced(bytes, a, d, &middle)
}

fn part_turned(chance: &mut Chance, bytes: &[u8], _: &[u8]) -> Vec<u8> {
    let part = span(chance, bytes);
    let turned: Vec<u8> = bytes[part.clone()].iter().rev().copied().collect();
    replaced(bytes, part.start, part.end, &turned)
}

fn part_of_another(chance: &mut Chance, bytes: &[u8], other: &[u8]) -> Vec<u8> {
    let (part, by) = (span(chance, bytes), span(chance, other));
    replaced(bytes, part.start, part.end, &other[by])
}

/// The beginning of one and the end of the other.
fn spliced(chance: &mut Chance, bytes: &[u8], other: &[u8]) -> Vec<u8> {
    let (front, back) = (span(chance, bytes), span(chance, other));
    [&bytes[..front.end], &other[back.start..]].concat()
}

/// What stands between the CR LFs.
fn lines(bytes: &[u8]) -> Vec<Vec<u8>> {
    let mut lines = vec![Vec::new()];
    let mut rest = bytes;
    while let Some((byte, after)) = rest.split_first() {
        if let Some(after) = rest.strip_prefix(b"\r\n") {
            lines.push(Vec::new());
            rest = after;
        } else {
            lines.last_mut().expect("there is one").push(*byte);
            rest = after;
        }
    }
    lines
}

fn row_ends_changed(chance: &mut Chance, bytes: &[u8], _: &[u8]) -> Vec<u8> {
    lines(bytes).join(chance.one_of(&ROW_ENDS))
}

fn row_end_changed(chance: &mut Chance, bytes: &[u8], _: &[u8]) -> Vec<u8> {
    let lines = lines(bytes);
    let (before, after) = lines.split_at(chance.between(1, lines.len()));
    let end = chance.one_of(&ROW_ENDS);
    [&before.join(&b"\r\n"[..]), end, &after.join(&b"\r\n"[..])].concat()
}

/// At the end mostly, now and then at the beginning.
fn cut_off(chance: &mut Chance, bytes: &[u8], _: &[u8]) -> Vec<u8> {
    let part = span(chance, bytes);
    match chance.one_in(4) {
        true => bytes[part.start..].to_vec(),
        false => bytes[..part.end].to_vec(),
    }
}

/// A part repeated until the file is as long as some limit, or it is cut.
fn stretched_to_a_limit(chance: &mut Chance, bytes: &[u8], _: &[u8]) -> Vec<u8> {
    let (part, limit) = (span(chance, bytes), chance.one_of(&LIMITS));
    let missing = limit.saturating_sub(bytes.len());
    let more: Vec<u8> = bytes[part.clone()]
        .iter()
        .copied()
        .cycle()
        .take(missing)
        .collect();
    let mut stretched = replaced(bytes, part.end, part.end, &more);
    stretched.truncate(limit);
    stretched
}

fn byte_repeated(chance: &mut Chance, bytes: &[u8], _: &[u8]) -> Vec<u8> {
    let run = chance.one_of(&RUNS);
    one_byte(chance, bytes, |byte| vec![byte; run])
}

/// Rows once more, each beginning otherwise: names are used once.
fn rows_again_renamed(chance: &mut Chance, bytes: &[u8], _: &[u8]) -> Vec<u8> {
    let rows = rows(chance, bytes);
    let mut again = bytes[rows.clone()].to_vec();
    let mut begins = true;
    for byte in &mut again {
        let ends = *byte == b'\n';
        if begins && !ends {
            *byte = chance.between(0x20, 0x7E) as u8;
        }
        begins = ends;
    }
    replaced(bytes, rows.end, rows.end, &again)
}

//! Files on both sides of each limit of document 01.

use crate::codes::{few, largest, one_band_changed, turned, Code, MOST_BANDS, MOST_CODES};
use crate::damage::damaged;
use crate::faults::{numbers_for, put};
use crate::orders::{name_of, order_list, quoted, rows, written, MOST_NAME_BYTES};
use reference::drive::chance::Chance;

const MOST_FILE_BYTES: usize = 16_384;

/// A code of about 64 bands among codes that overlap it.
pub fn bands(chance: &mut Chance) -> Vec<u8> {
    let length = MOST_BANDS - 1 + chance.one_of(&[0, 1, 1, 2, 2, 3]);
    let letters = chance.one_of(&[&b"A"[..], b"AB", b"XYZ"]);
    let mut long = chance.some_of(letters, length);
    let near = [
        one_band_changed(chance, letters, &long),
        turned(&long),
        [&long[1..], b"A"].concat(),
        long[chance.below(length)..].to_vec(),
    ];
    // A quote inside counts once though it is written twice.
    if chance.one_in(6) {
        let quotes = chance.between(1, length);
        long[..quotes].fill(b'"');
    }
    let mut codes = [few(chance), near[..chance.below(5)].to_vec(), vec![long]].concat();
    chance.shuffle(&mut codes);
    order_list(chance, &codes)
}

/// A name of about 24 bytes, or of none.
pub fn name_bytes(chance: &mut Chance) -> Vec<u8> {
    let codes = few(chance);
    let mut rows = rows(chance, &codes);
    let row = chance.between(1, codes.len());
    let length = chance.one_of(&[0, 1, 23, 24, 24, 25, 25, 26, 48, 49]);
    // All quotes: written twice as long.
    rows[row].fields[0] = match chance.below(3) {
        0 => vec![b'"'; length],
        _ => name_of(chance, length),
    };
    written(chance, &rows)
}

/// A name used twice, and the heading's name, which isn't a code's.
pub fn name_taken(chance: &mut Chance) -> Vec<u8> {
    let codes = [few(chance), few(chance)].concat();
    let mut rows = rows(chance, &codes);
    let row = chance.between(1, codes.len());
    rows[row].fields[0] = match chance.below(4) {
        0 => b"name".to_vec(),
        _ => rows[chance.between(1, codes.len())].fields[0].clone(),
    };
    written(chance, &rows)
}

/// About 128 codes, and often another fault in one of the last rows.
pub fn codes(chance: &mut Chance) -> Vec<u8> {
    let count = MOST_CODES - 1 + chance.one_of(&[0, 1, 1, 1, 2, 2, 2, 2, 2, 3, 20]);
    let codes = short_codes(chance, count);
    let mut rows = rows(chance, &codes);
    if chance.below(3) < 2 {
        let row = match chance.below(2) {
            0 => count.min(MOST_CODES + 1),
            _ => chance.between(MOST_CODES - 1, count),
        };
        let number = chance.one_of(numbers_for(row));
        put(chance, &mut rows, row, number);
    }
    written(chance, &rows)
}

/// Short codes, and now and then a last one in which others are contained.
fn short_codes(chance: &mut Chance, count: usize) -> Vec<Code> {
    let longest = chance.between(1, 5);
    let code = |_| {
        let length = chance.between(1, longest);
        chance.some_of(b"ABC", length)
    };
    let mut codes: Vec<Code> = (0..count).map(code).collect();
    if chance.one_in(3) {
        codes[count - 1] = codes[..12].concat();
    }
    codes
}

/// As many bytes as an accepted file can have: 15,120.
pub fn longest_accepted(chance: &mut Chance) -> Vec<u8> {
    let row = |(i, code): (usize, &Code)| {
        let (name, code) = (quoted(&name_of_quotes(i)), quoted(code));
        [&name[..], b",", &code, b"\r\n"].concat()
    };
    let rows: Vec<Vec<u8>> = largest(chance).iter().enumerate().map(row).collect();
    [&b"\"name\",\"code\"\r\n"[..], &rows.concat()].concat()
}

/// Different names, as long as they may be, of as many quotes as they can have.
fn name_of_quotes(i: usize) -> Vec<u8> {
    let mut name = vec![b'"'; MOST_NAME_BYTES];
    if i > 0 {
        name[i % MOST_NAME_BYTES] = b"ABCDEF"[i / MOST_NAME_BYTES];
    }
    name
}

/// A file of about 16,384 bytes, or of many more.
pub fn file_bytes(chance: &mut Chance) -> Vec<u8> {
    let over = chance.one_of(&[
        0, 1, 1, 1, 1, 2, 2, 2, 3, 10, 4_096, 16_385, 50_000, 100_000,
    ]);
    let length = MOST_FILE_BYTES - 1 + over;
    let codes = few(chance);
    let mut file = order_list(chance, &codes);
    if chance.one_in(4) {
        file = damaged(chance, &file);
    }
    let filler = filler(chance, length);
    let mut more = filler.iter().cycle();
    while file.len() < length {
        file.extend(more.next());
    }
    file
}

/// What a file is filled up with: what its last field or row is depends on it.
fn filler(chance: &mut Chance, length: usize) -> Vec<u8> {
    let rows = |i: usize| format!("row {i},AB\r\n").into_bytes();
    let fillers: [&[u8]; 10] = [
        b"A", b"p", b",", b"\"", b"\r\n", b"\0", b" ", b"P,A\r\n", b"\r\n\"", b",\"A\"",
    ];
    match chance.below(4) {
        0 => (0..length / 10).flat_map(rows).collect(),
        _ => chance.one_of(&fillers).to_vec(),
    }
}

//! A fault put into one row, by its number in the table of document 01.

use crate::codes::MOST_BANDS;
use crate::orders::{name_of, quoted, Row, MOST_NAME_BYTES};
use reference::drive::chance::Chance;

const WRONG_HEADINGS: [[&[u8]; 2]; 8] = [
    [b"Name", b"code"],
    [b"name", b"Code"],
    [b"code", b"name"],
    [b"name", b"codes"],
    [b"name ", b"code"],
    [b"name", b""],
    [b"name", b"co\"de"],
    [b"name\r\n", b"code"],
];

/// The numbers that a row can be refused by, the heading being row 0 here;
/// a name can't be taken before the second code, and 10 is not put.
pub fn numbers_for(row: usize) -> &'static [u8] {
    match row {
        0 => &[2, 3, 4],
        1 => &[2, 3, 5, 6, 7, 8],
        _ => &[2, 3, 5, 6, 7, 8, 9],
    }
}

/// Higher numbers first, where several are put into one row: 3 may take the
/// code away, and 7 leaves what 8 has put into it.
pub fn put(chance: &mut Chance, rows: &mut [Row], row: usize, number: u8) {
    let earlier = rows[chance.below(row.max(2) - 1) + 1].fields[0].clone();
    let Row { fields, broken } = &mut rows[row];
    match number {
        2 => *broken = true,
        3 => wrong_width(chance, fields),
        4 => *fields = chance.one_of(&WRONG_HEADINGS).map(<[u8]>::to_vec).to_vec(),
        5 => fields[0] = bad_name(chance),
        6 => fields[1].clear(),
        7 => fields[1].resize(MOST_BANDS + chance.one_of(&[1, 1, 2, 64, 300]), b'A'),
        8 => unknown_colour(chance, &mut fields[1]),
        9 => fields[0] = earlier,
        _ => unreachable!("no such fault is put"),
    }
}

fn wrong_width(chance: &mut Chance, fields: &mut Vec<Vec<u8>>) {
    match chance.below(3) {
        // A lone field that is empty would be no row at a file's end.
        0 if !fields[0].is_empty() => fields.truncate(1),
        1 => fields.push(b"third".to_vec()),
        _ => fields.push(Vec::new()),
    }
}

fn bad_name(chance: &mut Chance) -> Vec<u8> {
    let length = MOST_NAME_BYTES + chance.one_of(&[1, 1, 2, 40, 300]);
    let mut name = name_of(chance, MOST_NAME_BYTES);
    match chance.below(3) {
        0 => Vec::new(),
        1 => name_of(chance, length),
        _ => {
            name[chance.below(MOST_NAME_BYTES)] = chance.one_of(b"\r\n");
            name
        }
    }
}

fn unknown_colour(chance: &mut Chance, code: &mut [u8]) {
    code[chance.below(code.len())] = chance.one_of(b"@@[[az` 0,\"\r\n~");
}

/// A row's text made to break the grammar, whatever stands around it.
pub fn broken(chance: &mut Chance, line: &[u8]) -> Vec<u8> {
    let at = chance.between(0, line.len());
    let alone = chance.one_of(&[&b"\n"[..], b"\r", b"\n\r"]);
    match chance.below(6) {
        0 | 1 => [&line[..at], &[unprinted(chance)], &line[at..]].concat(),
        2 => [alone, line].concat(),
        3 => [line, alone].concat(),
        4 => [b"x\"", line].concat(),
        _ => [&quoted(b"x"), &b" "[..], line].concat(),
    }
}

/// A byte that no file may have, mostly one next to those that it may have.
pub fn unprinted(chance: &mut Chance) -> u8 {
    let low = (0x00..0x20).filter(|byte| !b"\r\n".contains(byte));
    let bytes: Vec<u8> = low.chain(0x7F..=0xFF).collect();
    match chance.below(3) {
        0 => chance.one_of(&bytes),
        _ => chance.one_of(&[0x00, 0x09, 0x0B, 0x1F, 0x1F, 0x7F, 0x7F, 0x80, 0xFF]),
    }
}

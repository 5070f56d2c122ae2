//! Order lists as a writer may write them: any names, quoted or not.

use crate::codes::Code;
use crate::faults::broken;
use reference::drive::chance::Chance;

pub const MOST_NAME_BYTES: usize = 24;

/// A row before it is written.
pub struct Row {
    pub fields: Vec<Vec<u8>>,
    /// Its text is to break the grammar, which its fields can't show.
    pub broken: bool,
}

impl Row {
    pub fn of(name: &[u8], code: &[u8]) -> Row {
        Row {
            fields: vec![name.to_vec(), code.to_vec()],
            broken: false,
        }
    }
}

/// A right order list of these codes.
pub fn order_list(chance: &mut Chance, codes: &[Code]) -> Vec<u8> {
    let rows = rows(chance, codes);
    written(chance, &rows)
}

/// The heading and a row for each code.
pub fn rows(chance: &mut Chance, codes: &[Code]) -> Vec<Row> {
    let names = names(chance, codes.len());
    let orders = names.iter().zip(codes);
    let mut rows = vec![Row::of(b"name", b"code")];
    rows.extend(orders.map(|(name, code)| Row::of(name, code)));
    rows
}

/// The rows as a file; the last may lack its CR LF.
pub fn written(chance: &mut Chance, rows: &[Row]) -> Vec<u8> {
    let quoted_in_100 = chance.one_of(&[0, 20, 50, 100]);
    let lines: Vec<Vec<u8>> = rows
        .iter()
        .map(|row| line(chance, row, quoted_in_100))
        .collect();
    let end = chance.one_of(&[&b"\r\n"[..], b""]);
    [&lines.join(&b"\r\n"[..]), end].concat()
}

fn line(chance: &mut Chance, row: &Row, quoted_in_100: usize) -> Vec<u8> {
    let field = |field: &Vec<u8>| match chance.below(100) < quoted_in_100 {
        false if !needs_quotes(field) => field.clone(),
        _ => quoted(field),
    };
    let fields: Vec<Vec<u8>> = row.fields.iter().map(field).collect();
    let line = fields.join(&b","[..]);
    match row.broken {
        true => broken(chance, &line),
        false => line,
    }
}

fn needs_quotes(field: &[u8]) -> bool {
    field.iter().any(|byte| b",\"\r\n".contains(byte))
}

pub fn quoted(field: &[u8]) -> Vec<u8> {
    let parts: Vec<&[u8]> = field.split(|byte| *byte == b'"').collect();
    [b"\"", &parts.join(&b"\"\""[..])[..], b"\""].concat()
}

/// So many different names.
fn names(chance: &mut Chance, count: usize) -> Vec<Vec<u8>> {
    let mut names: Vec<Vec<u8>> = Vec::new();
    while names.len() < count {
        let name = match names.is_empty() || !chance.one_in(5) {
            true => fresh_name(chance),
            false => near_name(chance, &names),
        };
        if !names.contains(&name) {
            names.push(name);
        }
    }
    names
}

fn fresh_name(chance: &mut Chance) -> Vec<u8> {
    let length = match chance.below(3) {
        0 => chance.one_of(&[1, 2, 23, 24]),
        _ => chance.between(1, MOST_NAME_BYTES),
    };
    name_of(chance, length)
}

pub fn name_of(chance: &mut Chance, length: usize) -> Vec<u8> {
    let printed: Vec<u8> = (0x20..=0x7E).collect();
    let bytes = chance.one_of(&[&b"PumpFan 0123"[..], b"Px,,\"\" ~", &printed]);
    chance.some_of(bytes, length)
}

/// A name that differs from an earlier one in one byte.
fn near_name(chance: &mut Chance, names: &[Vec<u8>]) -> Vec<u8> {
    let mut name = names[chance.below(names.len())].clone();
    let i = chance.below(name.len());
    match chance.below(3) {
        0 if name.len() < MOST_NAME_BYTES => name.push(b' '),
        1 if name.len() > 1 => drop(name.remove(i)),
        _ if name[i].is_ascii_alphabetic() => name[i] ^= 0x20,
        _ => name[i] = b'x',
    }
    name
}

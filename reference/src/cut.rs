//! Cutting an RFC 4180 file into rows and fields by searching.

use crate::rules::PRINTED;

/// The fields of one row, quotes taken off and doubled quotes made one.
pub type Fields = Vec<Vec<u8>>;

/// The rows of a file in order; `None` stands for a broken row and is the
/// last, as nobody can say where a broken row ends.
pub fn rows(file: &[u8]) -> impl Iterator<Item = Option<Fields>> + '_ {
    let mut rest = file;
    std::iter::from_fn(move || {
        if rest.is_empty() {
            return None;
        }
        let cut = cut_row(rest);
        rest = cut.as_ref().map_or(&[], |(_, after)| after);
        Some(cut.map(|(fields, _)| fields))
    })
}

/// The first row and what follows its CR LF.
fn cut_row(mut rest: &[u8]) -> Option<(Fields, &[u8])> {
    let mut fields = Vec::new();
    loop {
        let (field, after) = match rest.strip_prefix(b"\"") {
            Some(quoted) => cut_quoted(quoted)?,
            None => cut_plain(rest)?,
        };
        fields.push(field);
        if after.is_empty() {
            return Some((fields, after));
        }
        match after.strip_prefix(b",") {
            Some(next) => rest = next,
            // A lone CR or LF, or text after a closing quote, is no CR LF.
            None => return after.strip_prefix(b"\r\n").map(|next| (fields, next)),
        }
    }
}

/// An unquoted field runs to the first comma, CR or LF, or to the file's end.
fn cut_plain(rest: &[u8]) -> Option<(Vec<u8>, &[u8])> {
    let end = rest
        .iter()
        .position(|byte| b",\r\n".contains(byte))
        .unwrap_or(rest.len());
    let (field, after) = rest.split_at(end);
    let right = field
        .iter()
        .all(|byte| PRINTED.contains(byte) && *byte != b'"');
    right.then(|| (field.to_vec(), after))
}

/// A quoted field, its opening quote already taken off, runs to the first
/// quote that is not doubled.
fn cut_quoted(mut rest: &[u8]) -> Option<(Vec<u8>, &[u8])> {
    let mut field = Vec::new();
    loop {
        let quote = rest.iter().position(|byte| *byte == b'"')?;
        field.extend_from_slice(&rest[..quote]);
        rest = &rest[quote + 1..];
        match rest.strip_prefix(b"\"") {
            Some(next) => rest = next,
            None => break,
        }
        field.push(b'"');
    }
    let right = field
        .iter()
        .all(|byte| PRINTED.contains(byte) || b"\r\n".contains(byte));
    right.then_some((field, rest))
}

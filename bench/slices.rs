//! The same method as one writes it with slices: `windows`, a sort, `partition_point`,
//! `starts_with`, `ends_with`.

use crate::work::{Answer, Case, Verdict};
use std::collections::HashSet;

const LONGEST: usize = 64;

pub fn lay(case: &Case, ribbon: &mut [u8]) -> Answer {
    let codes = cut(&case.bands, &case.lengths);
    written(codes.map(|codes| row_of(&codes)), ribbon)
}

/// A result, where there is one and it fits.
fn written(result: Option<Vec<u8>>, out: &mut [u8]) -> Answer {
    let length = result.and_then(|result| {
        out.get_mut(..result.len())?.copy_from_slice(&result);
        Some(result.len() as u32)
    });
    Answer::Length(length.unwrap_or(0))
}

fn row_of(codes: &[&[u8]]) -> Vec<u8> {
    let faces = faces_of(codes);
    read(&faces, &Joins::of(&faces).piece_of(0))
}

/// The codes of a list that keeps the rules.
fn cut<'a>(bands: &'a [u8], lengths: &[u16]) -> Option<Vec<&'a [u8]>> {
    let total: usize = lengths.iter().map(|&length| usize::from(length)).sum();
    let ok = (1..=128).contains(&lengths.len())
        && lengths
            .iter()
            .all(|length| (1..=LONGEST as u16).contains(length))
        && total == bands.len()
        && bands.iter().all(u8::is_ascii_uppercase);
    let mut rest = bands;
    let code = |&length: &u16| {
        let (code, after) = rest.split_at(length.into());
        rest = after;
        code
    };
    ok.then(|| lengths.iter().map(code).collect())
}

fn turned(code: &[u8]) -> Vec<u8> {
    code.iter().rev().copied().collect()
}

/// Code j is longer than code i, or equally long with a lower number.
fn outranks(codes: &[&[u8]], j: usize, i: usize) -> bool {
    let (long, short) = (codes[j].len(), codes[i].len());
    short < long || (short == long && j < i)
}

/// A code or its turned form stands in a row.
fn stands(code: &[u8], turned: &[u8], row: &[u8]) -> bool {
    row.windows(code.len())
        .any(|part| part == code || part == turned)
}

/// The two faces of each code that no other holds.
fn faces_of(codes: &[&[u8]]) -> Vec<Vec<u8>> {
    let mut faces = Vec::new();
    for (i, code) in codes.iter().enumerate() {
        let turned = turned(code);
        let held_by = |j: usize| outranks(codes, j, i) && stands(code, &turned, codes[j]);
        if !(0..codes.len()).any(held_by) {
            faces.push(code.to_vec());
            faces.push(turned);
        }
    }
    faces
}

/// The joins made: the face after each face.
struct Joins {
    after: Vec<Option<usize>>,
}

impl Joins {
    fn of(faces: &[Vec<u8>]) -> Joins {
        let mut joins = Joins {
            after: vec![None; faces.len()],
        };
        let mut sorted: Vec<usize> = (0..faces.len()).collect();
        sorted.sort_unstable_by_key(|&face| &faces[face]);
        for shared in (0..=LONGEST).rev() {
            for (a, face) in faces.iter().enumerate() {
                if joins.after[a].is_some() || face.len() < shared {
                    continue;
                }
                let ending = &face[face.len() - shared..];
                if let Some(b) = joins.lowest_after(a, beginning_with(ending, faces, &sorted)) {
                    joins.after[a] = Some(b);
                    joins.after[b ^ 1] = Some(a ^ 1);
                }
            }
        }
        joins
    }

    /// The lowest of the candidates that a may be joined to.
    fn lowest_after(&self, a: usize, candidates: &[usize]) -> Option<usize> {
        let head = self.head(a);
        let allowed = |&b: &usize| self.after[b ^ 1].is_none() && b != head && b != a ^ 1;
        candidates.iter().copied().filter(allowed).min()
    }

    fn from(&self, face: usize) -> impl Iterator<Item = usize> + '_ {
        std::iter::successors(Some(face), |&face| self.after[face])
    }

    /// The first face of the piece that holds a face. Its mirror ends the mirrored piece.
    fn head(&self, face: usize) -> usize {
        self.from(face ^ 1).last().map_or(face, |end| end ^ 1)
    }

    fn piece_of(&self, face: usize) -> Vec<usize> {
        self.from(self.head(face)).collect()
    }
}

/// The faces that begin with a word are neighbours where all are sorted.
fn beginning_with<'a>(word: &[u8], faces: &[Vec<u8>], sorted: &'a [usize]) -> &'a [usize] {
    let from = &sorted[sorted.partition_point(|&face| faces[face].as_slice() < word)..];
    &from[..from.partition_point(|&face| faces[face].starts_with(word))]
}

fn overlap(a: &[u8], b: &[u8]) -> usize {
    let most = a.len().min(b.len());
    (0..=most)
        .rev()
        .find(|&k| a.ends_with(&b[..k]))
        .unwrap_or(0)
}

/// Ending by ending, the longest first.
pub fn overlaps(case: &Case, out: &mut [u8]) -> Answer {
    let faces = case.faces();
    let each = faces.iter().flat_map(|a| faces.iter().map(move |b| (a, b)));
    for (byte, (a, b)) in out.iter_mut().zip(each) {
        *byte = overlap(a, b) as u8;
    }
    Answer::Length((faces.len() * faces.len()) as u32)
}

/// The ribbon of an order of faces.
fn read(faces: &[Vec<u8>], order: &[usize]) -> Vec<u8> {
    let mut row = faces[order[0]].clone();
    for pair in order.windows(2) {
        let (last, next) = (&faces[pair[0]], &faces[pair[1]]);
        row.extend(&next[overlap(last, next)..]);
    }
    row
}

/// The way, and the start.
fn place(code: &[u8], row: &[u8]) -> Option<(&'static str, usize)> {
    let other = turned(code);
    let mut parts = row.windows(code.len()).enumerate();
    let (start, part) = parts.find(|&(_, part)| part == code || part == other)?;
    let way = match (part == code, part == other) {
        (true, true) => "either",
        (true, false) => "given",
        _ => "turned",
    };
    Some((way, start))
}

/// At how many starts.
fn how_often(code: &[u8], row: &[u8]) -> usize {
    let other = turned(code);
    let stands = |part: &&[u8]| *part == code || *part == other;
    row.windows(code.len()).filter(stands).count()
}

pub fn check(case: &Case, _: &mut [u8]) -> Answer {
    Answer::Verdict(verdict(case))
}

fn verdict(case: &Case) -> Verdict {
    let refused = |number| Verdict {
        refused: number,
        ..Verdict::default()
    };
    let Some(codes) = cut(&case.bands, &case.lengths) else {
        return refused(12);
    };
    if case.ribbon.len() > 16_384 {
        return refused(15);
    }
    if !case.ribbon.iter().all(u8::is_ascii_uppercase) {
        return refused(8);
    }
    let missing = |code: &&[u8]| place(code, &case.ribbon).is_none();
    match codes.iter().position(missing) {
        Some(number) => Verdict {
            missing: number as u32,
            ..Verdict::default()
        },
        None => Verdict {
            held: true,
            difference: case.ribbon.len() as i32 - row_of(&codes).len() as i32,
            ..Verdict::default()
        },
    }
}

pub fn sheet(case: &Case, out: &mut [u8]) -> Answer {
    written(sheet_of(case), out)
}

fn sheet_of(case: &Case) -> Option<Vec<u8>> {
    let codes = cut(&case.bands, &case.lengths)?;
    let names = names_of(case)?;
    let row = row_of(&codes);
    let mut sheet = b"name,way,start,bands,places\r\n".to_vec();
    for (name, code) in names.into_iter().zip(codes) {
        let (way, start) = place(code, &row)?;
        let places = how_often(code, &row[start..]);
        sheet.extend(field(name));
        sheet.extend(format!(",{way},{start},").bytes());
        sheet.extend(&row[start..start + code.len()]);
        sheet.extend(format!(",{places}\r\n").bytes());
    }
    Some(sheet)
}

/// The names of a list that keep the rules.
fn names_of(case: &Case) -> Option<Vec<&[u8]>> {
    let mut rest = &case.names[..];
    let mut names = Vec::new();
    for &size in &case.sizes {
        let (name, after) = rest.split_at_checked(size.into())?;
        names.push(name);
        rest = after;
    }
    let good = |name: &&[u8]| {
        (1..=24).contains(&name.len()) && name.iter().all(|byte| (0x20..=0x7E).contains(byte))
    };
    let once: HashSet<&[u8]> = names.iter().copied().collect();
    let ok = rest.is_empty()
        && names.len() == case.lengths.len()
        && names.iter().all(good)
        && once.len() == names.len();
    ok.then_some(names)
}

fn field(name: &[u8]) -> Vec<u8> {
    if !name.iter().any(|byte| b",\"".contains(byte)) {
        return name.to_vec();
    }
    let mut field = vec![b'"'];
    for &byte in name {
        if byte == b'"' {
            field.push(byte);
        }
        field.push(byte);
    }
    field.push(b'"');
    field
}

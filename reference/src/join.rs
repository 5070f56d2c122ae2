//! Joining kept codes by merging texts, as document 004's Greedy-R does.
//!
//! A piece and its mirror are held once, as one text that may be flipped, so
//! a join and its mirror are one merge.

use crate::place::turned;
use std::cmp::Reverse;

/// Faces joined so far, and the text they read.
#[derive(Clone)]
struct Piece {
    text: Vec<u8>,
    /// Never empty; the first and the last are the piece's end faces.
    faces: Vec<usize>,
    saved: usize,
}

/// A piece held one way round, seen from its end faces.
struct Ends {
    piece: usize,
    flipped: bool,
    first: usize,
    last: usize,
}

/// A join from the last face of the left piece to the first of the right.
struct Join<'a> {
    left: &'a Ends,
    right: &'a Ends,
    overlap: usize,
}

/// The ribbon and what it saved. While several pieces remain two of them can
/// be joined, if only with overlap 0.
pub fn joined(kept: &[&[u8]]) -> (Vec<u8>, usize) {
    let overlaps = overlaps(&faces_of(kept));
    let mut pieces: Vec<Piece> = (0..).zip(kept).map(|(k, code)| single(k, code)).collect();
    while pieces.len() > 1 {
        pieces = round(pieces, &overlaps);
    }
    let piece = pieces.pop().expect("a list has a kept code");
    // The ribbon is read from the piece that holds face 0, not face 1.
    let ribbon = held(&piece, !piece.faces.contains(&0));
    (ribbon.text, ribbon.saved)
}

/// The best join made: of the largest overlaps the lowest face a, then b.
fn round(mut pieces: Vec<Piece>, overlaps: &[Vec<usize>]) -> Vec<Piece> {
    let ends = ends_of(&pieces);
    let join = joins(&ends, overlaps)
        .min_by_key(|join| (Reverse(join.overlap), join.left.last, join.right.first))
        .expect("of two pieces one can be joined to the other");
    let left = held(&pieces[join.left.piece], join.left.flipped);
    let right = held(&pieces[join.right.piece], join.right.flipped);
    let (one, two) = (join.left.piece, join.right.piece);
    pieces.swap_remove(one.max(two));
    pieces.swap_remove(one.min(two));
    pieces.push(merged(left, right, join.overlap));
    pieces
}

/// All ordered pairs of different pieces, each as it is and flipped. No face
/// is paired with its mirror, as one piece stands for both.
fn joins<'a>(ends: &'a [Ends], overlaps: &'a [Vec<usize>]) -> impl Iterator<Item = Join<'a>> {
    ends.iter().flat_map(move |left| {
        let others = ends.iter().filter(|right| right.piece != left.piece);
        others.map(move |right| Join {
            left,
            right,
            overlap: overlaps[left.last][right.first],
        })
    })
}

fn ends_of(pieces: &[Piece]) -> Vec<Ends> {
    let both = |(piece, held): (usize, &Piece)| {
        let (first, last) = (held.faces[0], held.faces[held.faces.len() - 1]);
        let ends = |flipped, first, last| Ends {
            piece,
            flipped,
            first,
            last,
        };
        [
            ends(false, first, last),
            ends(true, mirror(last), mirror(first)),
        ]
    };
    pieces.iter().enumerate().flat_map(both).collect()
}

fn single(k: usize, code: &[u8]) -> Piece {
    Piece {
        text: code.to_vec(),
        faces: vec![2 * k],
        saved: 0,
    }
}

/// A piece as it is, or flipped: its mirror.
fn held(piece: &Piece, flipped: bool) -> Piece {
    if !flipped {
        return piece.clone();
    }
    Piece {
        text: turned(&piece.text),
        faces: piece.faces.iter().rev().map(|face| mirror(*face)).collect(),
        saved: piece.saved,
    }
}

/// The right text begins with its first face, so the overlap is cut off it.
fn merged(left: Piece, right: Piece, overlap: usize) -> Piece {
    Piece {
        text: [&left.text[..], &right.text[overlap..]].concat(),
        faces: [left.faces, right.faces].concat(),
        saved: left.saved + right.saved + overlap,
    }
}

/// The other face of the same code: 2k and 2k + 1.
fn mirror(face: usize) -> usize {
    face ^ 1
}

fn faces_of(kept: &[&[u8]]) -> Vec<Vec<u8>> {
    let both = |code: &&[u8]| [code.to_vec(), turned(code)];
    kept.iter().flat_map(both).collect()
}

/// The overlap from each face to each, worked out once for all rounds.
fn overlaps(faces: &[Vec<u8>]) -> Vec<Vec<usize>> {
    let from = |a: &Vec<u8>| faces.iter().map(|b| overlap(a, b)).collect();
    faces.iter().map(from).collect()
}

/// The length of the longest ending of a that is also a beginning of b.
pub fn overlap(a: &[u8], b: &[u8]) -> usize {
    let longest_first = (1..=a.len().min(b.len())).rev();
    let mut shared = longest_first.filter(|n| a.ends_with(&b[..*n]));
    shared.next().unwrap_or(0)
}

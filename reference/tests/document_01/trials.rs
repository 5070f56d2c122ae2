//! The rules worked on text and by plain trials, apart from the library.

use reference::Way;

pub fn turned(code: &str) -> String {
    code.chars().rev().collect()
}

fn overlap(a: &str, b: &str) -> usize {
    let shared = |n: &usize| a[a.len() - n..] == b[..*n];
    (0..=a.len().min(b.len())).filter(shared).max().unwrap()
}

pub fn kept(codes: &[String]) -> Vec<String> {
    let holds =
        |j: usize, i: usize| codes[j].contains(&codes[i]) || codes[j].contains(&turned(&codes[i]));
    let ranks = |j: usize, i: usize| {
        let (of_j, of_i) = (codes[j].len(), codes[i].len());
        of_j > of_i || (of_j == of_i && j < i)
    };
    let all = 0..codes.len();
    let stays = |i: &usize| !all.clone().any(|j| j != *i && holds(j, *i) && ranks(j, *i));
    all.clone()
        .filter(stays)
        .map(|i| codes[i].clone())
        .collect()
}

/// Joining as the prose has it: pieces of faces, a piece and its mirror apart,
/// and each join made with its mirror.
pub fn joined_by_faces(kept: &[String]) -> (String, usize) {
    let faces: Vec<String> = kept
        .iter()
        .flat_map(|code| [code.clone(), turned(code)])
        .collect();
    let mut pieces: Vec<Vec<usize>> = (0..faces.len()).map(|face| vec![face]).collect();
    while pieces.len() > 2 {
        let mut best = None;
        for a in 0..faces.len() {
            for b in 0..faces.len() {
                let ends = pieces.iter().position(|piece| piece.last() == Some(&a));
                let begins = pieces.iter().position(|piece| piece.first() == Some(&b));
                let allowed = ends.is_some() && begins.is_some() && ends != begins && b != a ^ 1;
                let shared = overlap(&faces[a], &faces[b]);
                if allowed && best.is_none_or(|(most, _, _)| shared > most) {
                    best = Some((shared, a, b));
                }
            }
        }
        let (_, a, b) = best.expect("some join is allowed");
        join(&mut pieces, a, b);
        join(&mut pieces, b ^ 1, a ^ 1);
    }
    let piece = pieces.iter().find(|piece| piece.contains(&0)).unwrap();
    read_off(piece, &faces)
}

fn join(pieces: &mut Vec<Vec<usize>>, a: usize, b: usize) {
    let begins = pieces.iter().position(|piece| piece[0] == b).unwrap();
    let right = pieces.remove(begins);
    let left = pieces
        .iter_mut()
        .find(|piece| piece.last() == Some(&a))
        .unwrap();
    left.extend(right);
}

/// The text of faces in a row, and the sum of the overlaps.
fn read_off(piece: &[usize], faces: &[String]) -> (String, usize) {
    let mut text = faces[piece[0]].clone();
    let mut saved = 0;
    for pair in piece.windows(2) {
        let shared = overlap(&faces[pair[0]], &faces[pair[1]]);
        text.push_str(&faces[pair[1]][shared..]);
        saved += shared;
    }
    (text, saved)
}

/// The length of the shortest row on which every kept code stands, by trying
/// every order and every way.
pub fn shortest_rival(row: &str, last: &str, left: &[String]) -> usize {
    let mut shortest = if left.is_empty() {
        row.len()
    } else {
        usize::MAX
    };
    for (i, code) in left.iter().enumerate() {
        let others = [&left[..i], &left[i + 1..]].concat();
        for way in [code.clone(), turned(code)] {
            let longer = format!("{row}{}", &way[overlap(last, &way)..]);
            shortest = shortest.min(shortest_rival(&longer, &way, &others));
        }
    }
    shortest
}

fn stands(ribbon: &str, start: usize, way: &str) -> bool {
    ribbon[start..].starts_with(way)
}

/// The first start at which a way stands, with that way; either where both do,
/// as document 02's M-103 has it.
pub fn expected_ways(codes: &[String], row: &str) -> Vec<Option<Way>> {
    let at = |code: &String, start: usize| {
        let ways = [code.clone(), turned(code)];
        let way = match ways.map(|way| stands(row, start, &way)) {
            [true, true] => Way::Either,
            [true, false] => Way::Given,
            [false, true] => Way::Turned,
            [false, false] => return None,
        };
        Some(way(start as u32))
    };
    let way = |code| (0..row.len()).find_map(|start| at(code, start));
    codes.iter().map(way).collect()
}

/// The number of starts at which a way stands.
pub fn expected_places(code: &str, row: &str) -> usize {
    let ways = [code.to_string(), turned(code)];
    let stands = |start: &usize| ways.iter().any(|way| stands(row, *start, way));
    (0..row.len()).filter(stands).count()
}

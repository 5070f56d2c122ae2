//! Where a code stands on a row of bytes.

/// A way of a code with the start at which it stands.
#[derive(Clone, Copy, Debug, PartialEq, Eq)]
pub enum Way {
    Given(u32),
    Turned(u32),
    /// The way of a code that equals its turned form.
    Either(u32),
}

impl Way {
    pub fn start(self) -> u32 {
        match self {
            Way::Given(start) | Way::Turned(start) | Way::Either(start) => start,
        }
    }

    pub fn word(self) -> &'static str {
        match self {
            Way::Given(_) => "given",
            Way::Turned(_) => "turned",
            Way::Either(_) => "either",
        }
    }
}

/// One listed code's place.
#[derive(Clone, Copy, Debug, PartialEq, Eq)]
pub struct Place {
    pub code: u32,
    pub way: Way,
}

/// The turned form of a code.
pub fn turned(code: &[u8]) -> Vec<u8> {
    code.iter().rev().copied().collect()
}

/// The smallest start, from a first one on, at which a code stands, with its
/// way there.
pub fn way_from(row: &[u8], code: &[u8], first: u32) -> Option<Way> {
    let turned = turned(code);
    let given_at = start_from(row, code, first);
    if code == turned {
        return given_at.map(Way::Either);
    }
    let turned_at = start_from(row, &turned, first);
    // Two words that differ, of one length, never stand at one start.
    let ways = [given_at.map(Way::Given), turned_at.map(Way::Turned)];
    ways.into_iter().flatten().min_by_key(|way| way.start())
}

/// A place for each code in list order, or the lowest code that has none.
pub fn places_on(row: &[u8], codes: &[&[u8]]) -> Result<Vec<Place>, u32> {
    let place = |(number, code): (u32, &&[u8])| {
        let way = way_from(row, code, 0).ok_or(number)?;
        Ok(Place { code: number, way })
    };
    (0..).zip(codes).map(place).collect()
}

/// The number of starts at which either way of a code stands, each once.
pub fn how_often(row: &[u8], code: &[u8]) -> usize {
    let ways = [code.to_vec(), turned(code)];
    let stands = |part: &&[u8]| ways.iter().any(|way| way == part);
    row.windows(code.len()).filter(stands).count()
}

/// Codes have at least one band, and rows here at most 16,384. Behind the row
/// there is no start.
fn start_from(row: &[u8], way: &[u8], first: u32) -> Option<u32> {
    let rest = row.get(first as usize..)?;
    let start = rest.windows(way.len()).position(|part| part == way)?;
    Some(first + start as u32)
}

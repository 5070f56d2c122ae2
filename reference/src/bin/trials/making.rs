//! Cases that are made: a list with names, a ribbon supplied for it, and
//! rooms that just suffice, or don't.

use crate::calls::SHEET_ROW;
use crate::cases::{List, Make};
use crate::draws::Draws;
use reference::{lay_ribbon, write_sheet};

const MOST_BANDS: usize = 8_192;
const MOST_CODES: usize = 128;

/// The cases of a line, one after the other.
pub fn made(make: &Make) -> impl Iterator<Item = List> + '_ {
    let mut draws = Draws::of(make.seed);
    (0..make.count).map(move |number| one(make, number, &mut draws))
}

/// Draws go on in this order: codes, names, the ribbon, the rooms.
fn one(make: &Make, number: u32, draws: &mut Draws) -> List {
    let codes = make.family.codes(number, draws);
    let names: Vec<Vec<u8>> = (0..codes.len()).map(|i| name(i, draws)).collect();
    let mut list = List {
        bands: codes.concat(),
        lengths: lengths_of(&codes),
        names: names.concat(),
        sizes: lengths_of(&names),
        ribbon: Vec::new(),
        rooms: [0; 3],
    };
    let laid = laid(&list);
    list.ribbon = supplied(laid.clone(), draws);
    list.rooms = rooms(laid.len(), codes.len(), sheet_bytes(&list), draws);
    list
}

/// Two letters, and after them what has to be quoted, or nothing.
pub fn name(i: usize, draws: &mut Draws) -> Vec<u8> {
    let letters = [i / 26, i % 26].map(|letter| b'a' + letter as u8);
    let more = match draws.draw(8) {
        0 => ",".to_string(),
        1 => "\"".to_string(),
        2 => "\"".repeat(22),
        _ => String::new(),
    };
    [&letters, more.as_bytes()].concat()
}

/// Codes have at most 64 bands, and names at most 24 bytes.
fn lengths_of(parts: &[Vec<u8>]) -> Vec<u16> {
    parts.iter().map(|part| part.len() as u16).collect()
}

fn laid(list: &List) -> Vec<u8> {
    let mut ribbon = vec![0; MOST_BANDS];
    let answer = lay_ribbon(&list.bands, &list.lengths, &mut ribbon);
    ribbon.truncate(answer.map_or(0, |laid| laid.length));
    ribbon
}

/// The ribbon that was laid out, or one that is made of it.
fn supplied(mut ribbon: Vec<u8>, draws: &mut Draws) -> Vec<u8> {
    match draws.draw(6) {
        2 => drop(ribbon.pop()),
        3 if !ribbon.is_empty() => {
            let place = draws.draw(ribbon.len());
            ribbon[place] = b'Z';
        }
        4 => ribbon.push(b'A'),
        5 => ribbon.reverse(),
        _ => {}
    }
    ribbon
}

fn sheet_bytes(list: &List) -> usize {
    let (names, sizes) = (&list.names, &list.sizes);
    let mut out = [0; SHEET_ROW];
    let answer = write_sheet(&list.bands, &list.lengths, names, sizes, &mut out);
    answer.map_or(0, |sheet| sheet.length)
}

/// What each result takes, or one less, or a little more.
fn rooms(ribbon: usize, records: usize, sheet: usize, draws: &mut Draws) -> [usize; 3] {
    let one_less = |room: usize| room.saturating_sub(1);
    [
        [ribbon, one_less(ribbon), ribbon + 3, MOST_BANDS][draws.draw(4)],
        [records, one_less(records), records + 2, MOST_CODES][draws.draw(4)],
        [sheet, one_less(sheet), sheet + 5][draws.draw(3)],
    ]
}

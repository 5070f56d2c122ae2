//! Writing the sheet.

use crate::lay::computed;
use crate::lend::room;
use crate::list::{codes_of, names_of};
use crate::place::{how_often, places_on, Way};
use crate::refusal::Refusal;

/// A sheet that was written.
#[derive(Clone, Copy, Debug, PartialEq, Eq)]
pub struct Sheet {
    /// Bytes written to the lent buffer.
    pub length: usize,
    pub saved: usize,
}

/// Lays out the ribbon of a list with names and writes its sheet.
pub fn write_sheet(
    bands: &[u8],
    lengths: &[u16],
    names: &[u8],
    sizes: &[u16],
    out: &mut [u8],
) -> Result<Sheet, Refusal> {
    let codes = codes_of(bands, lengths)?;
    let names = names_of(names, sizes, codes.len())?;
    let (ribbon, saved) = computed(&codes);
    let places = places_on(&ribbon, &codes).expect("every code stands on its own ribbon");
    let mut sheet = b"name,way,start,bands,places\r\n".to_vec();
    for ((name, code), place) in names.iter().zip(&codes).zip(places) {
        sheet.extend(row(name, place.way, code, &ribbon));
    }
    room(out, sheet.len())?.copy_from_slice(&sheet);
    Ok(Sheet {
        length: sheet.len(),
        saved,
    })
}

fn row(name: &[u8], way: Way, code: &[u8], ribbon: &[u8]) -> Vec<u8> {
    let start = way.start();
    let bands = &ribbon[start as usize..][..code.len()];
    let middle = format!(",{},{start},", way.word());
    let end = format!(",{}\r\n", how_often(ribbon, code));
    [&field(name)[..], middle.as_bytes(), bands, end.as_bytes()].concat()
}

/// A name as a field: quoted only if it holds a comma or a quote.
fn field(name: &[u8]) -> Vec<u8> {
    if !name.iter().any(|byte| b",\"".contains(byte)) {
        return name.to_vec();
    }
    let parts: Vec<&[u8]> = name.split(|byte| *byte == b'"').collect();
    let doubled = parts.join(&b"\"\""[..]);
    [b"\"", &doubled[..], b"\""].concat()
}

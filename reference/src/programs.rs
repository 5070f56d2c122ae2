//! The exact bytes the three programs write.

use crate::rules::{CODES, CODE_BANDS, NAME_BYTES};
use crate::{check_ribbon, lay_ribbon, read_orders, write_sheet};
use crate::{Checked, Place, Refusal, Way};

const LIST_BANDS: usize = CODES * CODE_BANDS;
/// A row: the name quoted and all quotes, a way of six letters, a start of four
/// digits, the bands, a number of places of four digits, four commas and CR LF.
/// The heading row is shorter.
const SHEET_BYTES: usize = (CODES + 1) * (2 * NAME_BYTES + 2 + 6 + 4 + CODE_BANDS + 4 + 4 + 2);

/// An order list as it was read.
struct List {
    bands: Vec<u8>,
    lengths: Vec<u16>,
    names: Vec<u8>,
    sizes: Vec<u16>,
}

/// What the ribbon program writes.
pub fn ribbon_output(file: &[u8]) -> Vec<u8> {
    written(ribbon_line(file))
}

/// What the sheet program writes.
pub fn sheet_output(file: &[u8]) -> Vec<u8> {
    written(sheet_rows(file))
}

/// What the check program writes.
pub fn check_output(list_file: &[u8], ribbon_file: &[u8]) -> Vec<u8> {
    written(check_line(list_file, ribbon_file))
}

/// The part of a ribbon file that is the ribbon: one CR LF at its very end is
/// not part of it.
pub fn ribbon_of(file: &[u8]) -> &[u8] {
    file.strip_suffix(b"\r\n").unwrap_or(file)
}

fn written(output: Result<Vec<u8>, Refusal>) -> Vec<u8> {
    let line = |refusal: Refusal| format!("refused,{},{}\r\n", refusal.number, refusal.row);
    output.unwrap_or_else(|refusal| line(refusal).into_bytes())
}

fn read(file: &[u8]) -> Result<List, Refusal> {
    let (mut bands, mut lengths) = (vec![0; LIST_BANDS], vec![0; CODES]);
    let (mut names, mut sizes) = (vec![0; CODES * NAME_BYTES], vec![0; CODES]);
    let read = read_orders(file, &mut bands, &mut lengths, &mut names, &mut sizes)?;
    bands.truncate(read.bands);
    lengths.truncate(read.codes);
    names.truncate(read.names);
    sizes.truncate(read.codes);
    Ok(List {
        bands,
        lengths,
        names,
        sizes,
    })
}

fn ribbon_line(file: &[u8]) -> Result<Vec<u8>, Refusal> {
    let list = read(file)?;
    let mut ribbon = vec![0; LIST_BANDS];
    let laid = lay_ribbon(&list.bands, &list.lengths, &mut ribbon)?;
    Ok([&ribbon[..laid.length], b"\r\n"].concat())
}

fn sheet_rows(file: &[u8]) -> Result<Vec<u8>, Refusal> {
    let list = read(file)?;
    let mut out = vec![0; SHEET_BYTES];
    let sheet = write_sheet(
        &list.bands,
        &list.lengths,
        &list.names,
        &list.sizes,
        &mut out,
    )?;
    out.truncate(sheet.length);
    Ok(out)
}

fn check_line(list_file: &[u8], ribbon_file: &[u8]) -> Result<Vec<u8>, Refusal> {
    let list = read(list_file)?;
    let ribbon = ribbon_of(ribbon_file);
    let unset = Place {
        code: 0,
        way: Way::Given(0),
    };
    let mut places = vec![unset; CODES];
    let checked = check_ribbon(&list.bands, &list.lengths, ribbon, &mut places)?;
    let line = match checked {
        Checked::Held(difference) => format!("held,{difference}\r\n"),
        Checked::Missing(code) => format!("missing,{code}\r\n"),
    };
    Ok(line.into_bytes())
}

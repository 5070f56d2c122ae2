//! Reads an order list, prints its ribbon, checks a ribbon file against it and prints its sheet: main LIST RIBBON-FILE
//! Where something is refused it prints `refused,` number `,` row. A file that can't be read counts as one of 0 bytes.

mod ribbons;

use ribbons::{check_ribbon, lay_ribbon, read_orders, ribbon_of, write_sheet};
use ribbons::{MOST_BANDS, MOST_CODES, MOST_NAME_BYTES, MOST_SHEET_BYTES};
use std::process::ExitCode;
use std::{env, fs, io, io::Write};

/// An order list as it was read.
struct List {
    bands: Vec<u8>,
    lengths: Vec<u16>,
    names: Vec<u8>,
    sizes: Vec<u16>,
}

fn main() -> ExitCode {
    let names: Vec<String> = env::args().skip(1).collect();
    let [list, ribbon] = &names[..] else {
        eprintln!("usage: main LIST RIBBON-FILE");
        return ExitCode::from(2);
    };
    let [list, ribbon] = [list, ribbon].map(|name| fs::read(name).unwrap_or_default());
    let (text, status) = match read(&list) {
        Ok(list) => (printed(&list, &ribbon), ExitCode::SUCCESS),
        Err(line) => (line, ExitCode::FAILURE),
    };
    match io::stdout().write_all(&text) {
        Ok(()) => status,
        Err(_) => ExitCode::from(2),
    }
}

fn refused(number: u8, row: u32) -> Vec<u8> {
    format!("refused,{number},{row}\r\n").into_bytes()
}

/// The list, or the line of its refusal.
fn read(file: &[u8]) -> Result<List, Vec<u8>> {
    let (mut bands, mut lengths) = (vec![0; MOST_BANDS], vec![0; MOST_CODES]);
    let (mut names, mut sizes) = (vec![0; MOST_NAME_BYTES], vec![0; MOST_CODES]);
    let count = read_orders(file, &mut bands, &mut lengths, &mut names, &mut sizes);
    if count.refused != 0 {
        return Err(refused(count.refused, count.row));
    }
    bands.truncate(count.bands as usize);
    lengths.truncate(count.codes as usize);
    names.truncate(count.names as usize);
    sizes.truncate(count.codes as usize);
    Ok(List {
        bands,
        lengths,
        names,
        sizes,
    })
}

fn printed(list: &List, ribbon_file: &[u8]) -> Vec<u8> {
    [
        ribbon(list),
        check(list, ribbon_of(ribbon_file)),
        sheet(list),
    ]
    .concat()
}

fn ribbon(list: &List) -> Vec<u8> {
    let mut ribbon = vec![0; MOST_BANDS];
    let laid = lay_ribbon(&list.bands, &list.lengths, &mut ribbon);
    match laid.refused {
        0 => [&ribbon[..laid.bands as usize], b"\r\n"].concat(),
        number => refused(number, 0),
    }
}

fn check(list: &List, ribbon: &[u8]) -> Vec<u8> {
    let checked = check_ribbon(&list.bands, &list.lengths, ribbon);
    match checked.refused {
        0 if checked.held => format!("held,{}\r\n", checked.difference).into_bytes(),
        0 => format!("missing,{}\r\n", checked.missing).into_bytes(),
        number => refused(number, 0),
    }
}

fn sheet(list: &List) -> Vec<u8> {
    let mut out = vec![0; MOST_SHEET_BYTES];
    let sheet = write_sheet(
        &list.bands,
        &list.lengths,
        &list.names,
        &list.sizes,
        &mut out,
    );
    match sheet.refused {
        0 => out[..sheet.bytes as usize].to_vec(),
        number => refused(number, 0),
    }
}

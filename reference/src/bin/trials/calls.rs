//! A case run through the calls, and its text.

use crate::cases::{Case, File, List, Pair};
use crate::lent::lent;
use crate::text::Text;
use reference::{check_output, ribbon_of, ribbon_output, sheet_output};
use reference::{check_ribbon, lay_ribbon, read_orders, write_sheet};
use reference::{Checked, Place, Read, Refusal, Way};

/// The rows that the programs' outputs are written into.
const RIBBON_ROW: usize = 8_194;
pub const SHEET_ROW: usize = 17_181;
const CHECK_ROW: usize = 32;

/// The records that a check hands back by value, and what they are at first.
const RECORDS: usize = 128;
const BLANK: Place = Place {
    code: 0,
    way: Way::Given(0),
};

/// The text of a case that has this number in its group.
pub fn run(case: &Case, number: usize, text: &mut Text) {
    text.say(&format!("case,{number},"));
    match case {
        Case::File(file) => run_file(file, text),
        Case::List(list) => run_list(list, text),
        Case::Pair(pair) => run_pair(pair, text),
    }
}

fn run_file(file: &File, text: &mut Text) {
    text.say("file\n");
    text.row("file", &file.file);
    read(file, text);
    let (ribbon, sheet) = (ribbon_output(&file.file), sheet_output(&file.file));
    output("ribbon_output", RIBBON_ROW, &ribbon, text);
    output("sheet_output", SHEET_ROW, &sheet, text);
}

fn run_list(list: &List, text: &mut Text) {
    text.say("list\n");
    text.row("codes", &list.bands);
    text.row("lengths", &list.lengths);
    text.row("names", &list.names);
    text.row("sizes", &list.sizes);
    text.row("supplied", &list.ribbon);
    lay(list, text);
    check(list, text);
    places(list, text);
    only(list, text);
    sheet(list, text);
}

fn run_pair(pair: &Pair, text: &mut Text) {
    text.say("pair\n");
    text.row("list", &pair.list);
    text.row("ribbon", &pair.ribbon);
    text.row("bands", ribbon_of(&pair.ribbon));
    let line = check_output(&pair.list, &pair.ribbon);
    output("check_output", CHECK_ROW, &line, text);
}

fn read(file: &File, text: &mut Text) {
    let [bands, lengths, names, sizes] = file.rooms;
    let (mut bands, mut lengths) = (lent(bands), lent(lengths));
    let (mut names, mut sizes) = (lent(names), lent(sizes));
    let answer = read_orders(&file.file, &mut bands, &mut lengths, &mut names, &mut sizes);
    let said = answer.map(|read| format!("orders,{},{},{}", read.codes, read.bands, read.names));
    say("read", said, text);
    let none = Read {
        codes: 0,
        bands: 0,
        names: 0,
    };
    let read = answer.unwrap_or(none);
    text.lent("bands", &bands, read.bands);
    text.lent("lengths", &lengths, read.codes);
    text.lent("names", &names, read.names);
    text.lent("sizes", &sizes, read.codes);
}

fn lay(list: &List, text: &mut Text) {
    let mut ribbon = lent(list.rooms[0]);
    let answer = lay_ribbon(&list.bands, &list.lengths, &mut ribbon);
    let said = answer.map(|laid| format!("ribbon,{},{}", laid.length, laid.saved));
    say("lay", said, text);
    text.lent("ribbon", &ribbon, answer.map_or(0, |laid| laid.length));
}

fn check(list: &List, text: &mut Text) {
    let mut records = lent(list.rooms[1]);
    let answer = checked(list, &mut records);
    say("check", answer.map(words), text);
    text.lent("records", &records, due(list, answer));
}

/// The check that hands its records back by value, for room for so many.
fn places(list: &List, text: &mut Text) {
    let mut found = [BLANK; RECORDS];
    let answer = checked(list, &mut found[..list.rooms[1].min(RECORDS)]);
    say("places", answer.map(words), text);
    text.lent_over("found", &found, due(list, answer), |_| BLANK);
}

/// The check that wants no records: there is always room.
fn only(list: &List, text: &mut Text) {
    let answer = checked(list, &mut [BLANK; RECORDS]);
    say("only", answer.map(words), text);
}

fn sheet(list: &List, text: &mut Text) {
    let mut rows = lent(list.rooms[2]);
    let (names, sizes) = (&list.names, &list.sizes);
    let answer = write_sheet(&list.bands, &list.lengths, names, sizes, &mut rows);
    let said = answer.map(|sheet| format!("written,{},{}", sheet.length, sheet.saved));
    say("sheet", said, text);
    text.lent("rows", &rows, answer.map_or(0, |sheet| sheet.length));
}

fn checked(list: &List, records: &mut [Place]) -> Result<Checked, Refusal> {
    check_ribbon(&list.bands, &list.lengths, &list.ribbon, records)
}

fn words(checked: Checked) -> String {
    match checked {
        Checked::Held(difference) => format!("held,{difference}"),
        Checked::Missing(code) => format!("missing,{code}"),
    }
}

/// How many records come with an answer.
fn due(list: &List, answer: Result<Checked, Refusal>) -> usize {
    match answer {
        Ok(Checked::Held(_)) => list.lengths.len(),
        _ => 0,
    }
}

/// The line of a call's answer.
fn say(call: &str, answer: Result<String, Refusal>, text: &mut Text) {
    let refused = |refusal: Refusal| format!("refused,{},{}", refusal.number, refusal.row);
    let words = answer.unwrap_or_else(refused);
    text.say(&format!("{call},{words}\n"));
}

/// What a program writes, at the beginning of a row that was lent for it.
fn output(label: &str, room: usize, bytes: &[u8], text: &mut Text) {
    let mut row = lent(room);
    row[..bytes.len()].copy_from_slice(bytes);
    text.lent(label, &row, bytes.len());
}

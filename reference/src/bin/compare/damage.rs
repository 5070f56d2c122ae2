//! Files damaged anywhere, by somebody who doesn't know what they say.

use crate::codes::turned;
use crate::faults::unprinted;
use crate::orders::quoted;
use reference::drive::chance::Chance;

type Damage = fn(&mut Chance, &[u8]) -> Vec<u8>;

pub const DAMAGES: [(&str, Damage); 28] = [
    ("a byte changed", byte_changed),
    ("a byte dropped", byte_dropped),
    ("a byte doubled", byte_doubled),
    ("a byte inserted", byte_inserted),
    ("a byte that no file may have", unprinted_inserted),
    ("the end cut off", end_cut_off),
    ("a part left out", part_left_out),
    ("a part repeated", part_repeated),
    ("a quote dropped", quote_dropped),
    ("a quote inserted", quote_inserted),
    ("all quotes dropped", quotes_dropped),
    ("a space inserted", space_inserted),
    ("LF alone", |_, file| with_ends(file, b"\n")),
    ("CR alone", |_, file| with_ends(file, b"\r")),
    ("LF CR", |_, file| with_ends(file, b"\n\r")),
    ("one row's end changed", row_end_changed),
    ("more after the end", more_after),
    ("more before the beginning", more_before),
    ("a third field", third_field),
    ("a field missing", field_missing),
    ("an empty field", empty_field),
    ("an empty line", empty_line),
    ("a row dropped", row_dropped),
    ("a row doubled", row_doubled),
    ("rows in another order", rows_shuffled),
    ("a row turned", row_turned),
    ("a row in lower case", row_lowered),
    ("a field with a line break", line_break),
];

pub fn damaged(chance: &mut Chance, file: &[u8]) -> Vec<u8> {
    let (_, damage) = chance.one_of(&DAMAGES);
    damage(chance, file)
}

/// The bytes at which a reader decides something, and their neighbours.
fn telling_byte(chance: &mut Chance) -> u8 {
    chance.one_of(b"\0\t\n\n\r\r\x1F  !\"\"\"\",,,@AZ[a~\x7F\x80\xFF")
}

/// The file with other bytes for the part from start to end.
fn replaced(file: &[u8], start: usize, end: usize, by: &[u8]) -> Vec<u8> {
    [&file[..start], by, &file[end..]].concat()
}

fn inserted(chance: &mut Chance, file: &[u8], by: &[u8]) -> Vec<u8> {
    let at = chance.between(0, file.len());
    replaced(file, at, at, by)
}

/// Some byte of the file with what the change makes of it.
fn one_byte(chance: &mut Chance, file: &[u8], change: impl Fn(u8) -> Vec<u8>) -> Vec<u8> {
    if file.is_empty() {
        return Vec::new();
    }
    let at = chance.below(file.len());
    replaced(file, at, at + 1, &change(file[at]))
}

fn byte_changed(chance: &mut Chance, file: &[u8]) -> Vec<u8> {
    let byte = telling_byte(chance);
    one_byte(chance, file, |_| vec![byte])
}

fn byte_dropped(chance: &mut Chance, file: &[u8]) -> Vec<u8> {
    one_byte(chance, file, |_| Vec::new())
}

fn byte_doubled(chance: &mut Chance, file: &[u8]) -> Vec<u8> {
    one_byte(chance, file, |byte| vec![byte, byte])
}

fn byte_inserted(chance: &mut Chance, file: &[u8]) -> Vec<u8> {
    let byte = telling_byte(chance);
    inserted(chance, file, &[byte])
}

fn unprinted_inserted(chance: &mut Chance, file: &[u8]) -> Vec<u8> {
    let byte = unprinted(chance);
    inserted(chance, file, &[byte])
}

fn end_cut_off(chance: &mut Chance, file: &[u8]) -> Vec<u8> {
    file[..chance.between(0, file.len())].to_vec()
}

fn part_left_out(chance: &mut Chance, file: &[u8]) -> Vec<u8> {
    let start = chance.between(0, file.len());
    let end = chance.between(start, file.len());
    replaced(file, start, end, b"")
}

fn part_repeated(chance: &mut Chance, file: &[u8]) -> Vec<u8> {
    let start = chance.between(0, file.len());
    let end = chance.between(start, file.len());
    replaced(file, end, end, &file[start..end])
}

fn quote_dropped(chance: &mut Chance, file: &[u8]) -> Vec<u8> {
    let quotes: Vec<usize> = (0..file.len()).filter(|i| file[*i] == b'"').collect();
    if quotes.is_empty() {
        return quote_inserted(chance, file);
    }
    let at = chance.one_of(&quotes);
    replaced(file, at, at + 1, b"")
}

fn quote_inserted(chance: &mut Chance, file: &[u8]) -> Vec<u8> {
    at_an_edge(chance, file, b"\"")
}

fn space_inserted(chance: &mut Chance, file: &[u8]) -> Vec<u8> {
    at_an_edge(chance, file, b" ")
}

/// At a field's edge more often than elsewhere.
fn at_an_edge(chance: &mut Chance, file: &[u8], by: &[u8]) -> Vec<u8> {
    let edge = |i: &usize| file[i - 1..=*i].iter().any(|byte| b",\r\n".contains(byte));
    let edges: Vec<usize> = (1..file.len()).filter(edge).collect();
    if edges.is_empty() || chance.one_in(4) {
        return inserted(chance, file, by);
    }
    let at = chance.one_of(&edges);
    replaced(file, at, at, by)
}

fn quotes_dropped(_: &mut Chance, file: &[u8]) -> Vec<u8> {
    file.iter().copied().filter(|byte| *byte != b'"').collect()
}

/// What stands between the CR LFs, in quotes or not.
fn lines_of(file: &[u8]) -> Vec<Vec<u8>> {
    let mut lines = Vec::new();
    let mut rest = file;
    while let Some(end) = rest.windows(2).position(|pair| pair == b"\r\n") {
        lines.push(rest[..end].to_vec());
        rest = &rest[end + 2..];
    }
    lines.push(rest.to_vec());
    lines
}

fn joined(lines: &[Vec<u8>]) -> Vec<u8> {
    lines.join(&b"\r\n"[..])
}

fn with_ends(file: &[u8], end: &[u8]) -> Vec<u8> {
    lines_of(file).join(end)
}

/// Lines without their ends, and the number of some line. Where CR LF ends
/// the file an empty line comes last, which is not chosen.
fn some_line(chance: &mut Chance, file: &[u8]) -> (Vec<Vec<u8>>, usize) {
    let lines = lines_of(file);
    let most = lines.len() - usize::from(lines.len() > 1 && lines[lines.len() - 1].is_empty());
    let chosen = chance.below(most);
    (lines, chosen)
}

/// Some line with what the change makes of it.
fn one_line(
    chance: &mut Chance,
    file: &[u8],
    change: impl Fn(&mut Chance, &[u8]) -> Vec<u8>,
) -> Vec<u8> {
    let (mut lines, i) = some_line(chance, file);
    lines[i] = change(chance, &lines[i]);
    joined(&lines)
}

fn row_end_changed(chance: &mut Chance, file: &[u8]) -> Vec<u8> {
    let (lines, i) = some_line(chance, file);
    let ends: [&[u8]; 9] = [
        b"\n",
        b"\r",
        b"\n\r",
        b"\r\r\n",
        b"\r\n\n",
        b"\r\n\r\n",
        b"\r\n \r\n",
        b" ",
        b"",
    ];
    let (before, after) = lines.split_at(i + 1);
    let end = chance.one_of(&ends);
    [&joined(before), end, &joined(after)].concat()
}

fn more_after(chance: &mut Chance, file: &[u8]) -> Vec<u8> {
    let byte = telling_byte(chance);
    let more: [&[u8]; 9] = [
        &[byte],
        b"\r\n",
        b"\r\n\r\n",
        b"\r",
        b"\n",
        b"\"",
        b"\x1A",
        b"\0",
        b"\r\nname,code\r\n",
    ];
    [file, chance.one_of(&more)].concat()
}

fn more_before(chance: &mut Chance, file: &[u8]) -> Vec<u8> {
    let more: [&[u8]; 5] = [b"\xEF\xBB\xBF", b" ", b"\r\n", b"\n", b"\"\""];
    [chance.one_of(&more), file].concat()
}

fn third_field(chance: &mut Chance, file: &[u8]) -> Vec<u8> {
    let more = chance.one_of(&[&b","[..], b",A", b",\"\"", b",,,", b",\"x\r\ny\""]);
    one_line(chance, file, |_, line| [line, more].concat())
}

/// What stands before and after some comma, in a field or between two.
fn cut_at_a_comma(chance: &mut Chance, line: &[u8]) -> (Vec<u8>, Vec<u8>) {
    let commas: Vec<usize> = (0..line.len()).filter(|i| line[*i] == b',').collect();
    if commas.is_empty() {
        return (line.to_vec(), Vec::new());
    }
    let at = chance.one_of(&commas);
    (line[..at].to_vec(), line[at + 1..].to_vec())
}

fn field_missing(chance: &mut Chance, file: &[u8]) -> Vec<u8> {
    one_line(chance, file, |chance, line| {
        let (before, after) = cut_at_a_comma(chance, line);
        [before, after][chance.below(2)].clone()
    })
}

fn empty_field(chance: &mut Chance, file: &[u8]) -> Vec<u8> {
    let empty = chance.one_of(&[&b""[..], b"\"\"", b" "]);
    one_line(chance, file, |chance, line| {
        let (before, after) = cut_at_a_comma(chance, line);
        match chance.below(2) {
            0 => [empty, b",", &after].concat(),
            _ => [&before, &b","[..], empty].concat(),
        }
    })
}

fn empty_line(chance: &mut Chance, file: &[u8]) -> Vec<u8> {
    one_line(chance, file, |chance, line| match chance.below(3) {
        0 => Vec::new(),
        1 => [b"\r\n", line].concat(),
        _ => [line, b"\r\n"].concat(),
    })
}

fn row_dropped(chance: &mut Chance, file: &[u8]) -> Vec<u8> {
    let (mut lines, i) = some_line(chance, file);
    lines.remove(i);
    joined(&lines)
}

fn row_doubled(chance: &mut Chance, file: &[u8]) -> Vec<u8> {
    one_line(chance, file, |_, line| [line, b"\r\n", line].concat())
}

fn rows_shuffled(chance: &mut Chance, file: &[u8]) -> Vec<u8> {
    let mut lines = lines_of(file);
    chance.shuffle(&mut lines);
    joined(&lines)
}

fn row_turned(chance: &mut Chance, file: &[u8]) -> Vec<u8> {
    one_line(chance, file, |_, line| turned(line))
}

fn row_lowered(chance: &mut Chance, file: &[u8]) -> Vec<u8> {
    one_line(chance, file, |_, line| line.to_ascii_lowercase())
}

fn line_break(chance: &mut Chance, file: &[u8]) -> Vec<u8> {
    let end = chance.one_of(&[&b"\r\n"[..], b"\n", b"\r"]);
    one_line(chance, file, |chance, line| {
        let (before, after) = cut_at_a_comma(chance, line);
        match chance.below(2) {
            0 => [&quoted(&inserted(chance, &before, end)), &b","[..], &after].concat(),
            _ => [&before, &b","[..], &quoted(&inserted(chance, &after, end))].concat(),
        }
    })
}

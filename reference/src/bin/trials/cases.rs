//! The file of cases, read strictly: every line is right, or none is run.

use crate::families::Family;
use crate::fields::{bytes, decimal, numbers, rooms, Fault};

const MOST_FILE_BYTES: usize = 131_072;

pub struct Group {
    pub title: String,
    pub work: Vec<Work>,
}

/// What a line asks for.
pub enum Work {
    Case(Case),
    Make(Make),
}

pub enum Case {
    File(File),
    List(List),
    Pair(Pair),
}

/// An order list that is read and handed to the programs.
pub struct File {
    pub file: Vec<u8>,
    /// For bands, lengths, names and sizes.
    pub rooms: [usize; 4],
}

/// A list with names, and a ribbon supplied for it.
pub struct List {
    pub bands: Vec<u8>,
    pub lengths: Vec<u16>,
    pub names: Vec<u8>,
    pub sizes: Vec<u16>,
    pub ribbon: Vec<u8>,
    /// For the ribbon, the records and the sheet.
    pub rooms: [usize; 3],
}

/// The two files of the check program.
pub struct Pair {
    pub list: Vec<u8>,
    pub ribbon: Vec<u8>,
}

/// So many cases of a family, made from a seed.
pub struct Make {
    pub family: Family,
    pub count: u32,
    pub seed: u32,
}

/// The groups of a file, or a line that is wrong.
pub fn groups(file: &[u8]) -> Result<Vec<Group>, String> {
    let is_lf = |byte: &u8| *byte == b'\n';
    if file.len() > MOST_FILE_BYTES {
        let before = file[..MOST_FILE_BYTES].iter().filter(|byte| is_lf(byte));
        let line = before.count() + 1;
        return Err(format!("line {line}: the file has over 131,072 bytes"));
    }
    let mut groups = Vec::new();
    for (number, line) in (1..).zip(file.split(is_lf)) {
        add(line, &mut groups).map_err(|fault| format!("line {number}: {fault}"))?;
    }
    Ok(groups)
}

fn add(line: &[u8], groups: &mut Vec<Group>) -> Result<(), Fault> {
    let printed = |line: &&str| line.bytes().all(|byte| (0x20..=0x7E).contains(&byte));
    let line = std::str::from_utf8(line).ok().filter(printed);
    let line = line.ok_or("a byte that is not printed")?;
    if line.is_empty() || line.starts_with('#') {
        return Ok(());
    }
    if let Some(title) = line.strip_prefix("= ") {
        groups.push(group(title)?);
        return Ok(());
    }
    let group = groups.last_mut().ok_or("a case before the first group")?;
    let (work, _) = work(line)?;
    group.work.push(work);
    Ok(())
}

fn group(title: &str) -> Result<Group, Fault> {
    if title.is_empty() || title.contains(',') {
        return Err("a group without a title, or with a comma in it");
    }
    Ok(Group {
        title: title.to_string(),
        work: Vec::new(),
    })
}

/// What a line asks for that is no title, and its remark.
pub fn work(line: &str) -> Result<(Work, Option<&str>), Fault> {
    let (kind, fields) = line.split_once(' ').ok_or("a line without fields")?;
    match kind {
        "file" => of_case(fields, |[file, lent]| {
            Ok(Case::File(File {
                file: bytes(file)?,
                rooms: rooms(lent)?,
            }))
        }),
        "list" => of_case(fields, |fields| Ok(Case::List(list(fields)?))),
        "pair" => of_case(fields, |[list, ribbon]| {
            Ok(Case::Pair(Pair {
                list: bytes(list)?,
                ribbon: bytes(ribbon)?,
            }))
        }),
        "make" => Ok((Work::Make(make(fields)?), None)),
        _ => Err("an unknown kind of line"),
    }
}

/// A case and its remark.
fn of_case<const N: usize>(
    text: &str,
    case: impl Fn([&str; N]) -> Result<Case, Fault>,
) -> Result<(Work, Option<&str>), Fault> {
    let (fields, remark) = fields(text)?;
    Ok((Work::Case(case(fields)?), remark))
}

fn list([bands, lengths, names, sizes, ribbon, lent]: [&str; 6]) -> Result<List, Fault> {
    Ok(List {
        bands: bytes(bands)?,
        lengths: numbers(lengths)?,
        names: bytes(names)?,
        sizes: numbers(sizes)?,
        ribbon: bytes(ribbon)?,
        rooms: rooms(lent)?,
    })
}

/// No case's text is told by such a line, so it has no remark.
fn make(text: &str) -> Result<Make, Fault> {
    let ([family, count, seed], remark) = fields(text)?;
    if remark.is_some() {
        return Err("a remark on cases that are made");
    }
    Ok(Make {
        family: Family::named(family).ok_or("an unknown family")?,
        count: decimal(count)?,
        seed: decimal(seed)?,
    })
}

/// So many fields, and the remark behind them.
fn fields<const N: usize>(text: &str) -> Result<([&str; N], Option<&str>), Fault> {
    let parts: Vec<&str> = text.splitn(N + 1, ' ').collect();
    let wrong = "a wrong number of fields";
    let (fields, rest) = parts.split_at_checked(N).ok_or(wrong)?;
    let fields = <[&str; N]>::try_from(fields).map_err(|_| wrong)?;
    let remark = match rest {
        [] => None,
        [rest, ..] => Some(rest.strip_prefix(": ").ok_or(wrong)?),
    };
    Ok((fields, remark))
}

//! Lists, files and lent buffers for the tests.

use reference::*;

/// A list with names, as the library takes it.
#[derive(Clone, Debug, PartialEq)]
pub struct List {
    pub bands: Vec<u8>,
    pub lengths: Vec<u16>,
    pub names: Vec<u8>,
    pub sizes: Vec<u16>,
}

impl List {
    /// A list of codes under the names N0, N1 and so on.
    pub fn of(codes: &[&str]) -> List {
        let order = |(i, code): (usize, &&str)| (format!("N{i}"), code.to_string());
        let orders: Vec<(String, String)> = codes.iter().enumerate().map(order).collect();
        List::named(&orders)
    }

    pub fn named<T: AsRef<str>>(orders: &[(T, T)]) -> List {
        let names: Vec<&str> = orders.iter().map(|(name, _)| name.as_ref()).collect();
        let codes: Vec<&str> = orders.iter().map(|(_, code)| code.as_ref()).collect();
        List {
            bands: codes.concat().into_bytes(),
            lengths: codes.iter().map(|code| code.len() as u16).collect(),
            names: names.concat().into_bytes(),
            sizes: names.iter().map(|name| name.len() as u16).collect(),
        }
    }

    pub fn lay(&self, ribbon: &mut [u8]) -> Result<Laid, Refusal> {
        lay_ribbon(&self.bands, &self.lengths, ribbon)
    }

    pub fn check(&self, ribbon: &[u8], places: &mut [Place]) -> Result<Checked, Refusal> {
        check_ribbon(&self.bands, &self.lengths, ribbon, places)
    }

    pub fn sheet(&self, out: &mut [u8]) -> Result<Sheet, Refusal> {
        write_sheet(&self.bands, &self.lengths, &self.names, &self.sizes, out)
    }

    /// The ribbon and what it saved, for a list that is not refused.
    pub fn laid(&self) -> (String, usize) {
        let mut ribbon = marked_bytes(8_192);
        let laid = self.lay(&mut ribbon).expect("the list is laid out");
        ribbon.truncate(laid.length);
        (String::from_utf8(ribbon).unwrap(), laid.saved)
    }

    /// The sheet's bytes, for a list that is not refused.
    pub fn sheet_bytes(&self) -> Vec<u8> {
        let mut out = marked_bytes(20_000);
        let sheet = self.sheet(&mut out).expect("the sheet is written");
        out.truncate(sheet.length);
        out
    }

    /// The place records on a ribbon that holds every code.
    pub fn places(&self, ribbon: &str) -> Vec<Place> {
        let mut places = marked_places(self.lengths.len());
        let checked = self.check(ribbon.as_bytes(), &mut places);
        assert!(matches!(checked, Ok(Checked::Held(_))), "{checked:?}");
        places
    }
}

/// The ribbon of a few codes and what it saved.
pub fn laid(codes: &[&str]) -> (String, usize) {
    List::of(codes).laid()
}

/// The four buffers lent to the reader.
#[derive(Clone, Debug, PartialEq)]
pub struct Lent {
    pub bands: Vec<u8>,
    pub lengths: Vec<u16>,
    pub names: Vec<u8>,
    pub sizes: Vec<u16>,
}

impl Lent {
    pub fn of(bands: usize, lengths: usize, names: usize, sizes: usize) -> Lent {
        Lent {
            bands: marked_bytes(bands),
            lengths: marked_lengths(lengths),
            names: marked_bytes(names),
            sizes: marked_lengths(sizes),
        }
    }

    /// Longer than any list: 128 codes of 64 bands with names of 24 bytes.
    pub fn roomy() -> Lent {
        Lent::of(8_200, 130, 3_100, 130)
    }

    pub fn read(&mut self, file: &[u8]) -> Result<Read, Refusal> {
        let Lent {
            bands,
            lengths,
            names,
            sizes,
        } = self;
        read_orders(file, bands, lengths, names, sizes)
    }
}

/// The list in a file that is not refused.
pub fn read(file: &[u8]) -> List {
    let mut lent = Lent::roomy();
    let read = lent.read(file).expect("the file is read");
    List {
        bands: lent.bands[..read.bands].to_vec(),
        lengths: lent.lengths[..read.codes].to_vec(),
        names: lent.names[..read.names].to_vec(),
        sizes: lent.sizes[..read.codes].to_vec(),
    }
}

/// The refusal of a file; the lent buffers have to stay as they were.
pub fn file_refusal(file: &[u8], mut lent: Lent) -> Refusal {
    let before = lent.clone();
    let refusal = lent.read(file).expect_err("the file is refused");
    assert_eq!(lent, before, "a refused call changes nothing");
    refusal
}

/// An order list of these rows, each ended by CR LF.
pub fn file(rows: &[&str]) -> Vec<u8> {
    let ended: Vec<String> = rows.iter().map(|row| format!("{row}\r\n")).collect();
    format!("name,code\r\n{}", ended.concat()).into_bytes()
}

/// An order list of so many codes AB under the names N0, N1 and so on, and
/// then these rows.
pub fn long_file(codes: usize, more: &[&str]) -> Vec<u8> {
    let rows: Vec<String> = (0..codes).map(|i| format!("N{i},AB")).collect();
    let rows: Vec<&str> = rows
        .iter()
        .map(String::as_str)
        .chain(more.iter().copied())
        .collect();
    file(&rows)
}

/// Every byte outside A to Z.
pub fn no_bands() -> impl Iterator<Item = u8> {
    (0..=255).filter(|byte| *byte < 0x41 || *byte > 0x5A)
}

pub fn refusal(number: u8, row: u32) -> Refusal {
    Refusal { number, row }
}

/// What lent bytes hold before a call; no two neighbours are alike.
pub fn marked_bytes(count: usize) -> Vec<u8> {
    (0..count).map(|i| (i % 251) as u8).collect()
}

pub fn marked_lengths(count: usize) -> Vec<u16> {
    (0..count).map(|i| 40_000 + i as u16).collect()
}

pub fn marked_places(count: usize) -> Vec<Place> {
    let mark = |i| Place {
        code: 90_000 + i,
        way: Way::Turned(70_000 + i),
    };
    (0..count as u32).map(mark).collect()
}

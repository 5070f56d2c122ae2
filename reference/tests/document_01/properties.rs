//! What document 01 says of every list and file, over random small ones.

use crate::chance::Chance;
use crate::common::*;
use crate::trials::*;
use reference::{check_output, cut, ribbon_output, sheet_output, Checked, Place, Way};

fn list_of(codes: &[String]) -> List {
    let codes: Vec<&str> = codes.iter().map(String::as_str).collect();
    List::of(&codes)
}

fn named(names: &[String], codes: &[String]) -> List {
    let orders: Vec<(&String, &String)> = names.iter().zip(codes).collect();
    List::named(&orders)
}

#[test]
fn a_ribbon_is_the_one_joined_by_faces() {
    let mut chance = Chance(0x5EED_0001);
    for _ in 0..3_000 {
        let codes = chance.codes(7);
        let laid = list_of(&codes).laid();
        assert_eq!(laid, joined_by_faces(&kept(&codes)), "{codes:?}");
    }
}

#[test]
fn a_ribbon_holds_every_code_and_accounts_for_every_band() {
    let mut chance = Chance(0x5EED_0002);
    for _ in 0..5_000 {
        let codes = chance.codes(9);
        let (ribbon, saved) = list_of(&codes).laid();
        for code in &codes {
            assert!(
                ribbon.contains(code) || ribbon.contains(&turned(code)),
                "{codes:?}"
            );
        }
        let total: usize = kept(&codes).iter().map(String::len).sum();
        assert_eq!(ribbon.len() + saved, total, "{codes:?}");
    }
}

#[test]
fn no_rival_saves_more_than_twice_as_much() {
    let mut chance = Chance(0x5EED_0003);
    let mut tried = 0;
    while tried < 3_000 {
        let codes = chance.codes(6);
        let kept = kept(&codes);
        if kept.len() > 4 {
            continue;
        }
        tried += 1;
        let (ribbon, saved) = list_of(&codes).laid();
        let rival = shortest_rival("", "", &kept);
        let total: usize = kept.iter().map(String::len).sum();
        assert!(total <= rival + 2 * saved, "{codes:?}");
        assert!(rival <= ribbon.len(), "{codes:?}");
    }
}

#[test]
fn a_place_is_true_and_the_smallest() {
    let mut chance = Chance(0x5EED_0004);
    let mut held = 0;
    for _ in 0..5_000 {
        let codes = chance.codes(6);
        let list = list_of(&codes);
        // Half the ribbons are the computed one, turned and with more around.
        let (computed, _) = list.laid();
        let row = match chance.below(2) {
            0 => chance.code("ABC", 12),
            _ => turned(&format!("{}{computed}AB", chance.code("ABC", 4))),
        };
        let mut places = marked_places(codes.len());
        let checked = list.check(row.as_bytes(), &mut places).unwrap();
        let ways = expected_ways(&codes, &row);
        match ways.iter().position(Option::is_none) {
            Some(code) => assert_eq!(checked, Checked::Missing(code as u32)),
            None => {
                held += 1;
                let difference = row.len() as i32 - computed.len() as i32;
                assert_eq!(checked, Checked::Held(difference));
                assert_eq!(places, records(&ways), "{codes:?} on {row}");
            }
        }
    }
    assert!(held > 2_000, "enough ribbons hold their codes");
}

fn records(ways: &[Option<Way>]) -> Vec<Place> {
    let record = |(code, way): (u32, &Option<Way>)| Place {
        code,
        way: way.unwrap(),
    };
    (0..).zip(ways).map(record).collect()
}

#[test]
fn a_sheet_read_back_gives_the_fields() {
    let mut chance = Chance(0x5EED_0005);
    for _ in 0..2_000 {
        let codes = chance.codes(6);
        let names = chance.names(codes.len());
        let list = named(&names, &codes);
        let (ribbon, _) = list.laid();
        let ways = expected_ways(&codes, &ribbon);
        let heading = ["name", "way", "start", "bands", "places"];
        let mut expected = vec![heading.map(Vec::from).to_vec()];
        for i in 0..codes.len() {
            let places = expected_places(&codes[i], &ribbon);
            expected.push(fields(&names[i], &codes[i], ways[i], places));
        }
        let sheet = list.sheet_bytes();
        let rows: Vec<cut::Fields> = cut::rows(&sheet).map(Option::unwrap).collect();
        assert_eq!(rows, expected, "{names:?} {codes:?}");
    }
}

fn fields(name: &str, code: &str, way: Option<Way>, places: usize) -> Vec<Vec<u8>> {
    let (word, start, bands) = match way.expect("the code stands on its ribbon") {
        Way::Given(start) => ("given", start, code.to_string()),
        Way::Turned(start) => ("turned", start, turned(code)),
        Way::Either(start) => ("either", start, code.to_string()),
    };
    [name, word, &start.to_string(), &bands, &places.to_string()]
        .map(Vec::from)
        .to_vec()
}

#[test]
fn an_order_list_read_back_gives_names_and_codes() {
    let mut chance = Chance(0x5EED_0006);
    for _ in 0..2_000 {
        let codes = chance.codes(9);
        let names = chance.names(codes.len());
        let mut file = "name,code".to_string();
        for (name, code) in names.iter().zip(&codes) {
            let (name, code) = (field(&mut chance, name), field(&mut chance, code));
            file.push_str(&format!("\r\n{name},{code}"));
        }
        // The last row may lack its CR LF.
        file.push_str(chance.one_of(&["", "\r\n"]));
        assert_eq!(read(file.as_bytes()), named(&names, &codes), "{file:?}");
    }
}

/// A field quoted where it has to be, and elsewhere by chance.
fn field(chance: &mut Chance, text: &str) -> String {
    if text.contains([',', '"']) || chance.below(2) == 0 {
        return format!("\"{}\"", text.replace('"', "\"\""));
    }
    text.to_string()
}

#[test]
fn any_bytes_are_read_or_refused_and_no_more() {
    let mut chance = Chance(0x5EED_0007);
    let (mut taken, mut turned_away) = (0, 0);
    for _ in 0..20_000 {
        let file = any_file(&mut chance);
        let [codes, bands] = [4, 6].map(|bound| chance.below(bound));
        let mut lent = Lent::of(bands, codes, codes, codes);
        let before = lent.clone();
        match lent.read(&file) {
            Ok(_) => taken += 1,
            Err(refusal) => {
                turned_away += 1;
                assert!(matches!(refusal.number, 2..=11 | 13));
                assert_eq!(lent, before);
            }
        }
        let line = ribbon_output(&file);
        assert_eq!(line.starts_with(b"refused,"), sheet_output(&file) == line);
        assert!(check_output(&file, &file).starts_with(b"refused,"));
    }
    assert!(taken > 100 && turned_away > 10_000, "{taken} {turned_away}");
}

/// A right file with bytes put in and its end cut off here and there.
fn any_file(chance: &mut Chance) -> Vec<u8> {
    let mut file = b"name,code\r\nx,AB\r\ny,\"CD\"\r\n".to_vec();
    for _ in 0..chance.below(4) {
        let at = chance.below(file.len() + 1);
        match chance.below(2) {
            0 => file.insert(at, chance.one_of(b"\"\"\"\",,,\r\n\n\rABab\x00\xFF")),
            _ => file.truncate(at),
        }
    }
    file
}

#[test]
fn any_lengths_are_taken_or_refused_and_no_more() {
    let mut chance = Chance(0x5EED_0008);
    let mut taken = [0; 3];
    for _ in 0..20_000 {
        let list = any_list(&mut chance);
        let ribbon_room = marked_bytes(chance.below(90));
        let sheet_room = marked_bytes(chance.below(200));
        let (mut ribbon, mut out) = (ribbon_room.clone(), sheet_room.clone());
        let laid = list.lay(&mut ribbon);
        let sheet = list.sheet(&mut out);
        // A run of bands holds its own codes.
        let checked = list.check(&list.bands, &mut marked_places(2));
        assert!(laid.is_ok() || ribbon == ribbon_room);
        assert!(sheet.is_ok() || out == sheet_room);
        let refusals = [laid.err(), sheet.err(), checked.err()];
        for (count, refusal) in taken.iter_mut().zip(refusals) {
            assert!(refusal.is_none_or(|given| [12, 13].contains(&given.number)));
            *count += usize::from(refusal.is_none());
        }
    }
    assert!(
        taken.iter().all(|count| (100..10_000).contains(count)),
        "{taken:?}"
    );
}

/// A list of any lengths over any bytes; now and then all of it is right.
fn any_list(chance: &mut Chance) -> List {
    let choices = [0, 1, 1, 1, 2, 2, 3, 3, 24, 25, 64, 65, 65_535];
    let lengths = chance.some_of(&choices, 2);
    let count = chance.one_of(&[1, 2, 2, 3]);
    let sizes = chance.some_of(&choices, count);
    let bands = any_run(chance, &lengths, b"ABCABCABCABC@");
    let names = any_run(chance, &sizes, b"abcdefghijk ~\n");
    List {
        bands,
        lengths,
        names,
        sizes,
    }
}

/// Bytes for these lengths, or a few too many or too few.
fn any_run(chance: &mut Chance, lengths: &[u16], bytes: &[u8]) -> Vec<u8> {
    let sum: usize = lengths.iter().map(|length| usize::from(*length)).sum();
    let count = chance.one_of(&[sum, sum, sum, sum + 1, sum.saturating_sub(1), sum % 65_536]);
    chance.some_of(bytes, count.min(200))
}

#[test]
fn the_largest_lists_are_laid_out() {
    let mut chance = Chance(0x5EED_0009);
    for bands in ["AB", "ABCDEFGHIJKLMNOPQRSTUVWXYZ"] {
        let list = List {
            bands: chance.some_of(bands.as_bytes(), 8_192),
            lengths: vec![64; 128],
            ..List::of(&[])
        };
        let (ribbon, saved) = list.laid();
        assert_eq!(ribbon.len() + saved, 8_192);
        assert_eq!(list.places(&ribbon).len(), 128);
    }
}

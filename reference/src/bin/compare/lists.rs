//! The order lists: each follows from a chance and its number alone.

use crate::codes::*;
use crate::damage::damaged;
use crate::faults::{numbers_for, put};
use crate::kinds::{kind, kind_at, Kind, SHARES};
use crate::limits;
use crate::orders::{order_list, rows, written};
use reference::drive::chance::Chance;

type Make = fn(&mut Chance) -> Vec<u8>;

pub const AT_THE_BOUND: &str = "at the bound";

/// Few of the largest, as they take the longest to lay out.
pub const KINDS: [Kind<Make>; 22] = [
    kind("few codes", 190, |chance| list_of(chance, few)),
    kind("codes that look alike", 40, |chance| {
        list_of(chance, looking_alike)
    }),
    kind("codes at many starts", 10, |chance| {
        list_of(chance, at_many_starts)
    }),
    kind("words of one length", 40, words),
    kind(AT_THE_BOUND, 40, |chance| list_of(chance, at_the_bound)),
    kind("10 to 40 codes", 65, |chance| list_of(chance, middle)),
    kind("many codes", 7, |chance| list_of(chance, many)),
    kind("largest", 1, |chance| list_of(chance, largest)),
    kind("largest, alike", 1, |chance| list_of(chance, largest_alike)),
    kind("largest file", 1, limits::longest_accepted),
    kind("damaged", 200, |chance| damaged_times(chance, 1)),
    kind("damaged twice", 60, |chance| damaged_times(chance, 2)),
    kind("damaged, 10 to 40 codes", 20, damaged_middle),
    kind("one fault", 55, one_fault),
    kind("two faults in one row", 60, two_faults_in_one_row),
    kind("two faults in two rows", 50, two_faults_in_two_rows),
    kind("about 64 bands", 30, limits::bands),
    kind("a name of about 24 bytes", 30, limits::name_bytes),
    kind("a name taken", 15, limits::name_taken),
    kind("about 128 codes", 25, limits::codes),
    kind("about 16,384 bytes", 30, limits::file_bytes),
    kind("a heading and little more", 30, heading),
];

/// By the number, so that each thousand has the same shares; far apart for
/// neighbours, so that a short run has many kinds too.
pub fn kind_of(number: u64) -> &'static Kind<Make> {
    kind_at(&KINDS, number % SHARES * 617 % SHARES)
}

fn list_of(chance: &mut Chance, make: fn(&mut Chance) -> Vec<Vec<u8>>) -> Vec<u8> {
    let codes = make(chance);
    order_list(chance, &codes)
}

fn words(chance: &mut Chance) -> Vec<u8> {
    list_of(chance, words_of_one_length)
}

fn damaged_times(chance: &mut Chance, times: usize) -> Vec<u8> {
    let file = list_of(chance, few);
    (0..times).fold(file, |file, _| damaged(chance, &file))
}

fn damaged_middle(chance: &mut Chance) -> Vec<u8> {
    let file = list_of(chance, middle);
    damaged(chance, &file)
}

fn one_fault(chance: &mut Chance) -> Vec<u8> {
    with_faults(chance, |chance, last| {
        let row = chance.between(0, last);
        vec![(row, chance.one_of(numbers_for(row)))]
    })
}

fn two_faults_in_one_row(chance: &mut Chance) -> Vec<u8> {
    with_faults(chance, |chance, last| {
        let row = chance.between(0, last);
        let two = chance.some_of(numbers_for(row), 2);
        two.into_iter().map(|number| (row, number)).collect()
    })
}

fn two_faults_in_two_rows(chance: &mut Chance) -> Vec<u8> {
    with_faults(chance, |chance, last| {
        let row = chance.below(last);
        let later = chance.between(row + 1, last);
        [row, later]
            .map(|row| (row, chance.one_of(numbers_for(row))))
            .to_vec()
    })
}

/// A few codes with the faults that are chosen for their last row's number.
fn with_faults(chance: &mut Chance, choose: fn(&mut Chance, usize) -> Vec<(usize, u8)>) -> Vec<u8> {
    let codes = few(chance);
    let mut rows = rows(chance, &codes);
    let mut faults = choose(chance, codes.len());
    faults.sort_by_key(|(_, number)| std::cmp::Reverse(*number));
    for (row, number) in faults {
        put(chance, &mut rows, row, number);
    }
    written(chance, &rows)
}

/// A file of no bytes, a heading alone, or a wrong heading with a row or none.
fn heading(chance: &mut Chance) -> Vec<u8> {
    let headings: [&[u8]; 19] = [
        b"",
        b"",
        b"name,code",
        b"name,code",
        b"name,code\r\n",
        b"name,code\r\n",
        b"\"name\",\"code\"\r\n",
        b"name,\"code\"",
        b"\"name\",code\r\n",
        b"name,code\r\n\r\n",
        b"name,code\r",
        b"name,code\n",
        b"\r\n",
        b"name",
        b"name,code,\r\n",
        b"name, code\r\n",
        b"name;code\r\n",
        b"\"na\"\"me\",code\r\n",
        b"\"name,code\"\r\n",
    ];
    let heading = chance.one_of(&headings);
    match chance.below(4) {
        0 => [heading, b"P,AB\r\n"].concat(),
        _ => heading.to_vec(),
    }
}

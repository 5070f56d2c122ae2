//! How the arguments of the check program name its two files.

use crate::kinds::{kind, Kind};
use reference::drive::files::File::{self, *};
use reference::drive::files::MOST_PATH_BYTES;

type Naming = fn(Vec<u8>, Vec<u8>) -> Vec<File>;

/// How the arguments name an order list and a ribbon file.
pub const NAMINGS: [Kind<Naming>; 16] = [
    kind("both files named", 860, |list, ribbon| {
        vec![Holding(list), Holding(ribbon)]
    }),
    kind("no argument", 10, |_, _| vec![]),
    kind("one argument", 20, |list, _| vec![Holding(list)]),
    kind("the list not there", 10, |_, ribbon| {
        vec![Absent, Holding(ribbon)]
    }),
    kind("the ribbon not there", 20, |list, _| {
        vec![Holding(list), Absent]
    }),
    kind("neither there", 5, |_, _| vec![Absent, Absent]),
    kind("a folder for the list", 5, |_, ribbon| {
        vec![Folder, Holding(ribbon)]
    }),
    kind("a folder for the ribbon", 10, |list, _| {
        vec![Holding(list), Folder]
    }),
    kind("an empty name for the list", 5, |_, ribbon| {
        vec![Nameless, Holding(ribbon)]
    }),
    kind("an empty name for the ribbon", 5, |list, _| {
        vec![Holding(list), Nameless]
    }),
    kind("a third argument", 15, |list, ribbon| {
        vec![Holding(list), Holding(ribbon), Nameless]
    }),
    kind("further files", 15, |list, ribbon| {
        let (first, second) = (Holding(list.clone()), Holding(ribbon.clone()));
        vec![first, second, Holding(list), Absent, Holding(ribbon)]
    }),
    kind("a long name for the list", 5, |list, ribbon| {
        vec![LongNamed(MOST_PATH_BYTES, list), Holding(ribbon)]
    }),
    kind("a long name for the ribbon", 5, |list, ribbon| {
        vec![Holding(list), LongNamed(MOST_PATH_BYTES, ribbon)]
    }),
    kind("too long a name for the list", 5, |list, ribbon| {
        vec![LongNamed(MOST_PATH_BYTES + 1, list), Holding(ribbon)]
    }),
    kind("too long a name for the ribbon", 5, |list, ribbon| {
        vec![Holding(list), LongNamed(MOST_PATH_BYTES + 1, ribbon)]
    }),
];

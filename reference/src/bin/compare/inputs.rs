//! The inputs: each follows from the program, the seed and its number alone.

use crate::kinds::{kind_at, Kind, SHARES};
use crate::lists::{kind_of, AT_THE_BOUND};
use crate::namings::NAMINGS;
use crate::supplied::{codes_for, ENDINGS, RIBBONS, SHORTEST};
use reference::drive::chance::Chance;
use reference::drive::files::File;
use reference::drive::programs::Program;

pub struct Input {
    /// What it was made as, in words.
    pub kind: String,
    /// What is handed over on standard input.
    pub bytes: Vec<u8>,
    /// Where the bytes are cut to be handed over in two parts.
    pub cut: Option<usize>,
    /// What the arguments name, one after the other.
    pub files: Vec<File>,
}

impl Input {
    /// What the reference writes. A file that isn't named has 0 bytes.
    pub fn expected(&self, program: Program) -> Vec<u8> {
        let file = |i: usize| self.files.get(i).map_or(&[][..], |file| file.bytes());
        match program {
            Program::Check => program.expected(file(0), file(1)),
            _ => program.expected(&self.bytes, &[]),
        }
    }

    /// What is handed over at a time.
    pub fn parts(&self) -> Vec<&[u8]> {
        match self.cut {
            Some(cut) => vec![&self.bytes[..cut], &self.bytes[cut..]],
            None => vec![&self.bytes],
        }
    }
}

/// All programs get the same order lists.
pub fn input(program: Program, seed: u64, number: u64) -> Input {
    let mut chance = Chance::of(seed, number);
    let kind = kind_of(number);
    let list = (kind.make)(&mut chance);
    match program {
        Program::Check => by_name(&mut chance, kind.name, list),
        _ => on_standard_input(&mut chance, kind.name, list),
    }
}

fn on_standard_input(chance: &mut Chance, kind: &str, list: Vec<u8>) -> Input {
    // A pipe may give a reader less than it asks for.
    let cut = chance.one_in(16).then(|| chance.between(0, list.len()));
    Input {
        kind: kind.to_string(),
        bytes: list,
        cut,
        files: Vec::new(),
    }
}

fn by_name(chance: &mut Chance, kind: &str, list: Vec<u8>) -> Input {
    let codes = codes_for(chance, &list);
    let ribbon = match kind == AT_THE_BOUND && chance.one_in(2) {
        true => &SHORTEST,
        false => some_kind(chance, &RIBBONS),
    };
    let ending = some_kind(chance, &ENDINGS);
    let naming = some_kind(chance, &NAMINGS);
    let row = [&(ribbon.make)(chance, &codes), ending.make].concat();
    Input {
        kind: [kind, ribbon.name, ending.name, naming.name].join("; "),
        bytes: Vec::new(),
        cut: None,
        files: (naming.make)(list, row),
    }
}

fn some_kind<Make>(chance: &mut Chance, kinds: &'static [Kind<Make>]) -> &'static Kind<Make> {
    kind_at(kinds, chance.below(SHARES as usize) as u64)
}

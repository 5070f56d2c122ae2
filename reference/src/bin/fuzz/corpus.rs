//! The cases that changes begin from: files of this tree, and what was found.

use crate::classes::Class;
use crate::trial::Case;
use reference::drive::chance::Chance;
use reference::drive::outcomes::Outcome::{self, *};
use std::collections::{BTreeMap, BTreeSet};
use std::path::PathBuf;
use std::{fs, io};

/// Of each outcome; there are eighteen.
const MOST_CASES: usize = 100;

pub struct Corpus {
    /// Cases of this tree, which stay whatever is found.
    given: Vec<Case>,
    /// Cases of classes that were new, by what came of them.
    found: BTreeMap<Outcome, Vec<Case>>,
    pub seen: BTreeSet<Class>,
}

impl Corpus {
    /// Each list with each ribbon.
    pub fn of(lists: &[PathBuf], ribbons: &[PathBuf]) -> io::Result<Corpus> {
        let mut given = Vec::new();
        for list in lists {
            for ribbon in ribbons {
                let (list, ribbon) = (fs::read(list)?, fs::read(ribbon)?);
                given.push(Case { list, ribbon });
            }
        }
        Ok(Corpus {
            given,
            found: BTreeMap::new(),
            seen: BTreeSet::new(),
        })
    }

    /// Short ones more often, as they are quick.
    pub fn some(&self, chance: &mut Chance) -> &Case {
        let cases = self.some_cases(chance);
        let [one, other] = [(); 2].map(|_| &cases[chance.below(cases.len())]);
        match one.list.len() <= other.list.len() || chance.one_in(4) {
            true => one,
            false => other,
        }
    }

    /// Half of them not refused, as most changes lead to a refusal.
    fn some_cases(&self, chance: &mut Chance) -> &[Case] {
        let refused = |outcome: &Outcome| matches!(outcome, Refused(_) | RibbonRefused(_));
        let wanted = chance.one_in(2);
        let groups = self
            .found
            .iter()
            .filter(|(outcome, _)| refused(outcome) == wanted);
        let groups: Vec<&[Case]> = groups.map(|(_, cases)| &cases[..]).collect();
        match groups.is_empty() || chance.one_in(6) {
            true => &self.given,
            false => chance.one_of(&groups),
        }
    }

    /// Keeps a case of a new class, in the place of some other where there are
    /// enough.
    pub fn offer(&mut self, chance: &mut Chance, class: Class, case: Case) {
        let outcome = class.1;
        if !self.seen.insert(class) {
            return;
        }
        let cases = self.found.entry(outcome).or_default();
        match cases.len() < MOST_CASES {
            true => cases.push(case),
            false => cases[chance.below(MOST_CASES)] = case,
        }
    }
}

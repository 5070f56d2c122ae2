//! The counts of a run, and what makes it fail.

use reference::drive::outcomes::{outcome_of, Outcome};
use reference::drive::programs::Program;
use reference::drive::run::{Answer, Ending};
use std::collections::BTreeMap;

/// A shorter run need not have every outcome.
const ENOUGH_INPUTS: u64 = 2_000;
const SHOWN: usize = 10;

pub struct Tally {
    program: Program,
    inputs: u64,
    /// How often the reference gives each outcome.
    given: BTreeMap<Outcome, u64>,
    differ: u64,
    /// The first inputs that differ, by number, with what the program did.
    pub first: BTreeMap<u64, Answer>,
    too_late: bool,
}

impl Tally {
    pub fn of(program: Program) -> Tally {
        Tally {
            program,
            inputs: 0,
            given: BTreeMap::new(),
            differ: 0,
            first: BTreeMap::new(),
            too_late: false,
        }
    }

    pub fn add(&mut self, number: u64, expected: &[u8], answer: Answer) {
        self.inputs += 1;
        *self.given.entry(outcome_of(expected)).or_default() += 1;
        self.too_late |= answer.ending == Ending::TooLate;
        if !answer.is(expected) {
            self.differ += 1;
            self.keep(number, answer);
        }
    }

    pub fn merged(mut self, other: Tally) -> Tally {
        self.inputs += other.inputs;
        self.differ += other.differ;
        self.too_late |= other.too_late;
        for (outcome, count) in other.given {
            *self.given.entry(outcome).or_default() += count;
        }
        for (number, answer) in other.first {
            self.keep(number, answer);
        }
        self
    }

    fn keep(&mut self, number: u64, answer: Answer) {
        self.first.insert(number, answer);
        if self.first.len() > SHOWN {
            self.first.pop_last();
        }
    }

    /// Everything that makes the run fail.
    pub fn faults(&self) -> Vec<String> {
        let differ = (self.differ > 0).then(|| format!("{} differ", self.differ));
        let too_late = self.too_late.then(|| "stopped there".to_string());
        let possible = self.program.outcomes();
        let strange = |outcome: &&Outcome| !possible.contains(outcome);
        let strange = self.given.keys().filter(strange);
        let strange = strange.map(|outcome| format!("{outcome} given"));
        let all = differ.into_iter().chain(too_late).chain(strange);
        all.chain(self.absent()).collect()
    }

    fn absent(&self) -> Vec<String> {
        if self.inputs < ENOUGH_INPUTS {
            return Vec::new();
        }
        let possible = self.program.outcomes().into_iter();
        let absent = possible.filter(|outcome| self.count(*outcome) == 0);
        absent
            .map(|outcome| format!("{outcome} never given"))
            .collect()
    }

    fn count(&self, outcome: Outcome) -> u64 {
        self.given.get(&outcome).copied().unwrap_or(0)
    }

    pub fn summary(&self, seed: u64) -> String {
        let verdict = match &self.faults()[..] {
            [] => "all equal".to_string(),
            faults => faults.join(", "),
        };
        let counts: Vec<String> = (self.program.outcomes().into_iter())
            .map(|outcome| format!("{outcome}: {}", self.count(outcome)))
            .collect();
        format!(
            "{} inputs, {verdict} ({}; seed {seed})",
            self.inputs,
            counts.join(", ")
        )
    }
}

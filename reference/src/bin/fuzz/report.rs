//! The counts of a run.

use crate::classes::Class;
use crate::options::Options;
use reference::drive::outcomes::{outcome_of, Outcome};
use reference::drive::programs::Program;
use std::collections::{BTreeMap, BTreeSet};
use std::time::Duration;

#[derive(Default)]
pub struct Tally {
    given: BTreeMap<(Outcome, Program), u64>,
    pub classes: BTreeSet<Class>,
}

impl Tally {
    pub fn add(&mut self, program: Program, expected: &[u8]) {
        *self
            .given
            .entry((outcome_of(expected), program))
            .or_default() += 1;
    }

    pub fn merged(mut self, other: Tally) -> Tally {
        for (key, count) in other.given {
            *self.given.entry(key).or_default() += count;
        }
        self.classes.extend(other.classes);
        self
    }

    /// A row for each outcome that can come or came, a column for each program.
    pub fn table(&self, options: &Options, time: Duration) -> String {
        let programs: Vec<Program> = options
            .programs
            .iter()
            .map(|(program, _)| *program)
            .collect();
        let possible = programs.iter().flat_map(|program| program.outcomes());
        let given = self.given.keys().map(|(outcome, _)| *outcome);
        let outcomes: BTreeSet<Outcome> = possible.chain(given).collect();
        let runs = |program: &Program| self.count(|(_, of)| of == program);
        let mut text = format!(
            "{:.1} minutes, {} runs, {} classes of outcomes, seed {}\n",
            time.as_secs_f64() / 60.0,
            self.count(|_| true),
            self.classes.len(),
            options.seed
        );
        text += &row("", programs.iter().map(Program::to_string));
        text += &row(
            "runs",
            programs.iter().map(|program| runs(program).to_string()),
        );
        for outcome in outcomes {
            let counts = programs.iter().map(|program| {
                let count = self.count(|key| *key == (outcome, *program));
                count.to_string()
            });
            text += &row(&outcome.to_string(), counts);
        }
        text
    }

    fn count(&self, of: impl Fn(&(Outcome, Program)) -> bool) -> u64 {
        let those = self.given.iter().filter(|(key, _)| of(key));
        those.map(|(_, count)| count).sum()
    }
}

fn row(title: &str, cells: impl Iterator<Item = String>) -> String {
    let cells: String = cells.map(|cell| format!("{cell:>10}")).collect();
    format!("{title:<25}{cells}\n")
}

//! What the command is asked for.

use reference::drive::programs::Program;
use std::path::{Path, PathBuf};
use std::time::Duration;

const MINUTES: f64 = 10.0;
const SEED: u64 = 1;

pub struct Options {
    pub programs: Vec<(Program, PathBuf)>,
    /// Where a difference is put.
    pub keep: PathBuf,
    pub lists: Vec<PathBuf>,
    pub ribbons: Vec<PathBuf>,
    pub time: Duration,
    pub seed: u64,
}

pub fn options(words: impl Iterator<Item = String>) -> Option<Options> {
    let mut words = words.peekable();
    let mut options = Options {
        programs: Vec::new(),
        keep: PathBuf::new(),
        lists: Vec::new(),
        ribbons: Vec::new(),
        time: Duration::ZERO,
        seed: SEED,
    };
    while let Some(word) = words.next() {
        // What follows a word up to the next.
        let mut values = Vec::new();
        while let Some(value) = words.next_if(|next| word == "--" || !next.starts_with("--")) {
            values.push(value);
        }
        options.take(&word, values)?;
    }
    let Options { lists, ribbons, .. } = &options;
    let enough = !options.programs.is_empty() && !lists.is_empty() && !ribbons.is_empty();
    // A run of no time would pass whatever the programs do.
    (enough && !options.time.is_zero()).then_some(options)
}

impl Options {
    /// Of a program that is among them.
    pub fn path(&self, program: Program) -> &Path {
        let mut named = self.programs.iter().filter(|(name, _)| *name == program);
        &named.next().expect("it is among them").1
    }

    fn take(&mut self, word: &str, values: Vec<String>) -> Option<()> {
        let paths = values.iter().map(PathBuf::from);
        match (word, &values[..]) {
            ("--lists", _) => self.lists = paths.collect(),
            ("--ribbons", _) => self.ribbons = paths.collect(),
            ("--keep", [folder]) => self.keep = folder.into(),
            ("--", numbers) if numbers.len() <= 2 => {
                let minutes = numbers.first().map_or(Some(MINUTES), |n| n.parse().ok())?;
                self.time = Duration::try_from_secs_f64(60.0 * minutes).ok()?;
                self.seed = numbers.get(1).map_or(Some(SEED), |n| n.parse().ok())?;
            }
            (_, [path]) => {
                let program = Program::named(word.strip_prefix("--")?)?;
                let new = self.programs.iter().all(|(other, _)| *other != program);
                new.then(|| self.programs.push((program, path.into())))?;
            }
            _ => return None,
        }
        Some(())
    }
}

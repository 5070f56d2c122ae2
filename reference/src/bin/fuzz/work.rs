//! One worker's share of a run. What it tries follows from the seed and its
//! number alone; the time only says how far it comes.

use crate::changes::changed;
use crate::classes::class;
use crate::corpus::Corpus;
use crate::options::Options;
use crate::report::Tally;
use crate::trial::{Case, Trial};
use reference::drive::chance::Chance;
use reference::drive::files::Room;
use reference::drive::programs::Program;
use reference::ribbon_output;
use std::io;
use std::sync::atomic::{AtomicBool, Ordering};
use std::time::Instant;

/// Goes on to the first difference, to the end of the time, or until it is stopped.
pub fn work(
    options: &Options,
    worker: usize,
    end: Instant,
    stop: &AtomicBool,
) -> io::Result<(Tally, Option<Trial>)> {
    let mut chance = Chance::of(options.seed, worker as u64);
    let mut corpus = Corpus::of(&options.lists, &options.ribbons)?;
    let room = Room::of_worker(worker)?;
    let mut tally = Tally::default();
    for (program, path) in options.programs.iter().cycle() {
        let case = next_case(&mut chance, &corpus, *program);
        let trial = Trial::of(*program, path, case, &room)?;
        tally.add(*program, &trial.expected);
        if trial.differs() {
            return Ok((tally, Some(trial)));
        }
        corpus.offer(&mut chance, class(&trial), trial.case);
        if Instant::now() >= end || stop.load(Ordering::Relaxed) {
            break;
        }
    }
    tally.classes = corpus.seen;
    Ok((tally, None))
}

fn next_case(chance: &mut Chance, corpus: &Corpus, program: Program) -> Case {
    let (from, other) = (corpus.some(chance), corpus.some(chance));
    let mut case = from.clone();
    if program != Program::Check || chance.one_in(2) {
        case.list = changed(chance, &from.list, &other.list);
    }
    if program == Program::Check {
        case.ribbon = match chance.below(5) {
            0 => from.ribbon.clone(),
            // It may hold codes of the list that it was not laid out for.
            1 => ribbon_output(&from.list),
            2 => changed(chance, &ribbon_output(&case.list), &other.ribbon),
            _ => changed(chance, &from.ribbon, &other.ribbon),
        };
    }
    case
}

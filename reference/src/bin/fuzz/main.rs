//! Drives the programs with changed files for a stated time, and compares
//! what each writes with what the reference writes.

#![forbid(unsafe_code)]

mod changes;
mod classes;
mod corpus;
mod keep;
mod options;
mod report;
mod shrink;
mod spans;
#[cfg(test)]
mod tests;
mod trial;
mod work;

use keep::keep;
use options::{options, Options};
use report::Tally;
use shrink::shrunk;
use std::io;
use std::process::ExitCode;
use std::sync::atomic::{AtomicBool, Ordering};
use std::thread;
use std::time::Instant;
use trial::Trial;
use work::work;

const USAGE: &str = "usage: fuzz [--ribbon PATH] [--sheet PATH] [--check PATH] --keep FOLDER
       --lists FILE.. --ribbons FILE.. -- [MINUTES [SEED]]
At least one program is named by its path";

fn main() -> ExitCode {
    let Some(options) = options(std::env::args().skip(1)) else {
        eprintln!("{USAGE}");
        return ExitCode::from(2);
    };
    fuzz(&options).unwrap_or_else(|error| {
        eprintln!("fuzz: {error}");
        ExitCode::from(2)
    })
}

fn fuzz(options: &Options) -> io::Result<ExitCode> {
    let start = Instant::now();
    let (tally, found) = run_all(options, start)?;
    print!("{}", tally.table(options, start.elapsed()));
    let Some(found) = found else {
        println!("all equal");
        return Ok(ExitCode::SUCCESS);
    };
    let path = options.path(found.program);
    let small = shrunk(found, path)?;
    print!("{}", keep(&small, &options.keep)?);
    Ok(ExitCode::FAILURE)
}

/// Two workers, each with chance and a corpus of its own.
fn run_all(options: &Options, start: Instant) -> io::Result<(Tally, Option<Trial>)> {
    let stop = AtomicBool::new(false);
    let end = start + options.time;
    thread::scope(|scope| {
        let stop = &stop;
        let workers = [1, 2].map(|worker| {
            scope.spawn(move || {
                let done = work(options, worker, end, stop);
                // Whatever ended it ends the other.
                stop.store(true, Ordering::Relaxed);
                done
            })
        });
        let [one, two] = workers.map(|worker| worker.join().expect("it does not panic"));
        let ((tally, first), (other, second)) = (one?, two?);
        Ok((tally.merged(other), first.or(second)))
    })
}

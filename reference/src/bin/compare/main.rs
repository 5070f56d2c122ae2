//! Compares a program with the reference, on inputs made from a seed.

#![forbid(unsafe_code)]

mod codes;
mod damage;
mod faults;
mod inputs;
mod kinds;
mod limits;
mod lists;
mod long_ribbons;
mod merges;
mod namings;
mod orders;
mod report;
mod show;
mod supplied;
#[cfg(test)]
mod tests;

use inputs::input;
use reference::drive::files::Room;
use reference::drive::programs::Program;
use reference::drive::run::{run, Ending};
use report::Tally;
use std::io::{self, Write};
use std::path::PathBuf;
use std::process::ExitCode;
use std::sync::atomic::{AtomicU64, Ordering};
use std::thread;
use std::time::Duration;

const USAGE: &str = "usage: compare PROGRAM --program PATH [COUNT [SEED]]
       compare PROGRAM --show NUMBER [SEED]
PROGRAM is ribbon, sheet or check";
const COUNT: u64 = 20_000;
const SEED: u64 = 1;
const TIME_LIMIT: Duration = Duration::from_secs(30);

struct Options {
    program: Program,
    path: PathBuf,
    show: bool,
    /// How many inputs, or the number of the one to show.
    count: u64,
    seed: u64,
}

fn main() -> ExitCode {
    let Some(options) = options(std::env::args().skip(1)) else {
        eprintln!("{USAGE}");
        return ExitCode::from(2);
    };
    let done = match options.show {
        true => show_input(&options),
        false => compare(&options),
    };
    done.unwrap_or_else(|error| {
        eprintln!("compare: {error}");
        ExitCode::from(2)
    })
}

fn options(mut words: impl Iterator<Item = String>) -> Option<Options> {
    let program = Program::named(&words.next()?)?;
    let (mut path, mut show, mut numbers) = (PathBuf::new(), false, Vec::new());
    while let Some(word) = words.next() {
        match &word[..] {
            "--program" => path = words.next()?.into(),
            "--show" => show = true,
            _ => numbers.push(word.parse().ok()?),
        }
    }
    let (count, seed) = match numbers[..] {
        [] if !show => (COUNT, SEED),
        [count] => (count, SEED),
        [count, seed] => (count, seed),
        _ => return None,
    };
    // A run of no inputs would pass whatever the program does.
    (count > 0).then_some(Options {
        program,
        path,
        show,
        count,
        seed,
    })
}

/// A list as it is, to be handed to a program; files by name, which stay.
fn show_input(options: &Options) -> io::Result<ExitCode> {
    let input = input(options.program, options.seed, options.count);
    let mut out = io::stdout().lock();
    if options.program == Program::Check {
        let room = Room::to_keep(&format!("compare-{}-{}", options.seed, options.count))?;
        let names = room.lay_out(&input.files)?;
        write!(out, "{}", show::files(&input, &names))?;
    } else {
        eprintln!("{}", input.kind);
        out.write_all(&input.bytes)?;
    }
    Ok(ExitCode::SUCCESS)
}

fn compare(options: &Options) -> io::Result<ExitCode> {
    let tally = run_all(options)?;
    for (number, answer) in &tally.first {
        let input = input(options.program, options.seed, *number);
        let expected = input.expected(options.program);
        println!("{}", show::difference(*number, &input, &expected, answer));
    }
    println!("{}", tally.summary(options.seed));
    Ok(match tally.faults().is_empty() {
        true => ExitCode::SUCCESS,
        false => ExitCode::FAILURE,
    })
}

/// Two threads take the inputs by turns.
fn run_all(options: &Options) -> io::Result<Tally> {
    let next = AtomicU64::new(1);
    let work = |worker| take_turns(options, &next, Room::of_worker(worker)?);
    thread::scope(|scope| {
        let workers = [1, 2].map(|worker| scope.spawn(move || work(worker)));
        let [one, two] = workers.map(|worker| worker.join().expect("it does not panic"));
        Ok(one?.merged(two?))
    })
}

fn take_turns(options: &Options, next: &AtomicU64, room: Room) -> io::Result<Tally> {
    let mut tally = Tally::of(options.program);
    loop {
        let number = next.fetch_add(1, Ordering::Relaxed);
        if number > options.count {
            return Ok(tally);
        }
        let input = input(options.program, options.seed, number);
        let names = room.lay_out(&input.files)?;
        let answer = run(&options.path, &names, &input.parts(), TIME_LIMIT)?;
        if answer.ending == Ending::TooLate {
            // All others may take as long: begin no more.
            next.store(options.count + 1, Ordering::Relaxed);
        }
        tally.add(number, &input.expected(options.program), answer);
    }
}

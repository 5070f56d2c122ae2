//! Times the overlap alone, and the calls on the largest lists whole: laying out, checking a supplied
//! ribbon, writing the sheet. Started by `bench/run`.
//!
//! The proved library stands beside Rust by the same method, once with plain index loops over the
//! same data and once with slices. All have to answer, and leave in the lent buffer, what the
//! reference implementation says.

mod endings;
mod lists;
mod proved;
mod reading;
mod reference;
mod same_method;
mod slices;
mod stack;
mod work;

use std::ffi::OsStr;
use std::hint::black_box;
use std::process::ExitCode;
use std::time::{Duration, Instant};
use work::{Call, Case, Outcome, UNTOUCHED};

/// A way of doing it, with a name: the proved library's, and then others in Rust.
type Way = (&'static str, Call);

/// One of the calls: its ways, the proved one first, what the reference says of it, the room that
/// its result may need, the lists, and how often each way is timed on each. The best run counts,
/// since whatever else the machine does only adds time.
struct Work {
    name: &'static str,
    ways: Vec<Way>,
    expected: fn(&OsStr, &Case, usize) -> std::io::Result<Outcome>,
    room: usize,
    cases: Vec<Case>,
    runs: usize,
}

fn works() -> [Work; 4] {
    [
        Work {
            name: "16,384 overlaps",
            ways: vec![
                ("proved", proved::overlaps),
                ("same method", same_method::overlaps),
                ("by endings", endings::overlaps),
                ("slices", slices::overlaps),
            ],
            expected: reference::overlaps,
            room: 16_384,
            cases: lists::overlapped(),
            runs: 30,
        },
        Work {
            name: "laying out",
            ways: three_ways(proved::lay, same_method::lay, slices::lay),
            expected: reference::lay,
            room: 8_192,
            cases: lists::largest(),
            runs: 30,
        },
        Work {
            name: "the sheet",
            ways: three_ways(proved::sheet, same_method::sheet, slices::sheet),
            expected: reference::sheet,
            room: 17_181,
            cases: lists::largest(),
            runs: 10,
        },
        Work {
            name: "checking 16,384 bands",
            ways: three_ways(proved::check, same_method::check, slices::check),
            expected: reference::check,
            room: 0,
            cases: lists::checked(),
            runs: 5,
        },
    ]
}

fn three_ways(proved: Call, same_method: Call, slices: Call) -> Vec<Way> {
    vec![
        ("proved", proved),
        ("same method", same_method),
        ("slices", slices),
    ]
}

fn main() -> ExitCode {
    let Some(command) = std::env::args_os().nth(1) else {
        eprintln!("usage: bench REFERENCE-COMMAND; bench/run builds all and calls it");
        return ExitCode::from(2);
    };
    match measure(&command) {
        Ok(()) => ExitCode::SUCCESS,
        Err(message) => {
            eprintln!("bench: {message}");
            ExitCode::FAILURE
        }
    }
}

fn measure(command: &OsStr) -> Result<(), String> {
    for work in works() {
        for case in &work.cases {
            compare(&work, case, command)
                .map_err(|message| format!("{}, {}: {message}", work.name, case.name))?;
        }
        print_table(&work, &best_times(&work));
        let peaks = work.cases.iter().map(|case| peak_of_stack(&work, case));
        print_peak("the proved call", peaks.max());
        println!();
    }
    let mut orders = None;
    let mut ribbon = None;
    for case in lists::largest() {
        orders = orders.max(Some(reading::peak_of_orders(&case)?));
        ribbon = ribbon.max(Some(reading::peak_of_ribbon(&case)?));
    }
    print_peak("reading an order list", orders);
    print_peak("taking the ribbon out of a file", ribbon);
    Ok(())
}

/// Every way has the outcome that the reference says.
fn compare(work: &Work, case: &Case, command: &OsStr) -> Result<(), String> {
    let expected = (work.expected)(command, case, work.room)
        .map_err(|error| format!("the reference: {error}"))?;
    for (way, call) in &work.ways {
        if Outcome::of(*call, case, work.room) != expected {
            return Err(format!("{way} and the reference give different results"));
        }
    }
    Ok(())
}

/// The best time of each way on each list. The ways take turns, so that a busy moment falls on all.
fn best_times(work: &Work) -> Vec<Vec<Duration>> {
    let mut best = vec![vec![Duration::MAX; work.ways.len()]; work.cases.len()];
    for _ in 0..work.runs {
        for (case, times) in work.cases.iter().zip(&mut best) {
            for ((_, call), time) in work.ways.iter().zip(times) {
                *time = (*time).min(time_of(*call, case, work.room));
            }
        }
    }
    best
}

fn time_of(call: Call, case: &Case, room: usize) -> Duration {
    let mut buffer = vec![UNTOUCHED; room];
    let start = Instant::now();
    black_box(call(black_box(case), black_box(&mut buffer)));
    start.elapsed()
}

/// Times in milliseconds. A ratio is the proved library's time over that of the way before it.
fn print_table(work: &Work, times: &[Vec<Duration>]) {
    print!("{:26}", format!("{}, ms", work.name));
    for (number, (way, _)) in work.ways.iter().enumerate() {
        print!(" {way:>11}{}", if number == 0 { "" } else { "   ratio" });
    }
    println!();
    for (case, times) in work.cases.iter().zip(times) {
        let times: Vec<f64> = times.iter().map(|time| time.as_secs_f64() * 1e3).collect();
        print!("{:26} {:11.3}", case.name, times[0]);
        for time in &times[1..] {
            print!(" {time:11.3} {:7.2}", times[0] / time);
        }
        println!();
    }
}

fn print_peak(name: &str, peak: Option<usize>) {
    let bytes = peak.unwrap_or(0);
    println!("stack: {name} takes at most {bytes} bytes on these lists");
}

fn peak_of_stack(work: &Work, case: &Case) -> usize {
    let mut buffer = vec![UNTOUCHED; work.room];
    stack::peak(&mut || {
        let (_, proved) = work.ways[0];
        black_box(proved(case, &mut buffer));
    })
}

//! Running the program under test on one input.

use std::ffi::OsString;
use std::io::{self, Read, Write};
use std::path::Path;
use std::process::{Child, ChildStderr, ChildStdin, ChildStdout, Command, ExitStatus, Stdio};
use std::thread;
use std::time::{Duration, Instant};

/// More than any right answer, so that a program that writes for ever ends.
const MOST_OUTPUT: u64 = 20_000;
/// A program of ours says nothing on standard error; this much is kept.
const MOST_SAID: u64 = 1_000;
/// Long enough for the program to have read the first part, mostly.
const PAUSE: Duration = Duration::from_millis(2);
const BETWEEN_LOOKS: Duration = Duration::from_micros(100);

#[derive(PartialEq)]
pub struct Answer {
    pub bytes: Vec<u8>,
    /// What it wrote to standard error.
    pub said: Vec<u8>,
    pub ending: Ending,
}

impl Answer {
    /// These bytes, in good order.
    pub fn is(&self, expected: &[u8]) -> bool {
        self.bytes == expected && self.said.is_empty() && self.ending == Ending::Success
    }
}

#[derive(PartialEq)]
pub enum Ending {
    Success,
    Failure(ExitStatus),
    TooLate,
}

/// Its standard input is handed over part by part, with a pause between two.
pub fn run(
    program: &Path,
    arguments: &[OsString],
    parts: &[&[u8]],
    limit: Duration,
) -> io::Result<Answer> {
    let mut command = Command::new(program);
    answer(command.args(arguments), parts, limit)
        .map_err(|error| io::Error::other(format!("{}: {error}", program.display())))
}

fn answer(command: &mut Command, parts: &[&[u8]], limit: Duration) -> io::Result<Answer> {
    command.stdin(Stdio::piped());
    command.stdout(Stdio::piped()).stderr(Stdio::piped());
    let mut child = command.spawn()?;
    let given = child.stdin.take().expect("it was piped");
    let written = child.stdout.take().expect("it was piped");
    let said = child.stderr.take().expect("it was piped");
    // Beside the wait, as a program that reads nothing would hold us up.
    thread::scope(|scope| {
        let talk = scope.spawn(|| talk(given, parts, written, said));
        let ending = ending(&mut child, limit)?;
        let (bytes, said) = talk.join().expect("it does not panic")?;
        Ok(Answer {
            bytes,
            said,
            ending,
        })
    })
}

/// What it writes to standard output, and to standard error.
fn talk(
    given: ChildStdin,
    parts: &[&[u8]],
    written: ChildStdout,
    said: ChildStderr,
) -> io::Result<(Vec<u8>, Vec<u8>)> {
    hand_over(given, parts)?;
    let bytes = beginning(written, MOST_OUTPUT)?;
    Ok((bytes, beginning(said, MOST_SAID)?))
}

fn beginning(from: impl Read, most: u64) -> io::Result<Vec<u8>> {
    let mut bytes = Vec::new();
    from.take(most).read_to_end(&mut bytes)?;
    Ok(bytes)
}

/// Dropping the pipe at the end closes the input.
fn hand_over(mut given: ChildStdin, parts: &[&[u8]]) -> io::Result<()> {
    for (number, part) in parts.iter().enumerate() {
        if number > 0 {
            thread::sleep(PAUSE);
        }
        match given.write_all(part) {
            // It need not read a file that is too long to its end.
            Err(error) if error.kind() == io::ErrorKind::BrokenPipe => {}
            result => result?,
        }
    }
    Ok(())
}

/// Waits, and ends a program that takes too long.
fn ending(child: &mut Child, limit: Duration) -> io::Result<Ending> {
    let start = Instant::now();
    while start.elapsed() < limit {
        match child.try_wait()? {
            Some(status) if status.success() => return Ok(Ending::Success),
            Some(status) => return Ok(Ending::Failure(status)),
            None => thread::sleep(BETWEEN_LOOKS),
        }
    }
    child.kill()?;
    child.wait()?;
    Ok(Ending::TooLate)
}

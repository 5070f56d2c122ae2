//! What is timed: a call on a list, and what it answers and leaves in a lent buffer.

use std::hint::black_box;

/// A list as the calls take it: one run of bands and a length for each code, one run of names and a
/// length for each; and a supplied ribbon, for the check.
pub struct Case {
    pub name: &'static str,
    pub bands: Vec<u8>,
    pub lengths: Vec<u16>,
    pub names: Vec<u8>,
    pub sizes: Vec<u16>,
    pub ribbon: Vec<u8>,
}

impl Case {
    pub fn codes(&self) -> Vec<&[u8]> {
        parts(&self.bands, &self.lengths)
    }

    pub fn named(&self) -> Vec<&[u8]> {
        parts(&self.names, &self.sizes)
    }

    /// A face of each code: those of odd numbers turned.
    pub fn faces(&self) -> Vec<Vec<u8>> {
        let face = |(i, code): (usize, &[u8])| {
            let mut face = code.to_vec();
            if is_turned(i) {
                face.reverse();
            }
            face
        };
        self.codes().into_iter().enumerate().map(face).collect()
    }
}

/// A run cut by lengths.
fn parts<'a>(run: &'a [u8], lengths: &[u16]) -> Vec<&'a [u8]> {
    let mut rest = run;
    let cut = |&length: &u16| {
        let (part, after) = rest.split_at(length.into());
        rest = after;
        part
    };
    lengths.iter().map(cut).collect()
}

fn is_turned(number: usize) -> bool {
    number % 2 == 1
}

/// The overlap from a way of one word to a way of another; true is the turned way.
pub type Overlap = fn(&[u8], bool, &[u8], bool) -> usize;

/// The overlap from each face to each, a byte for each. No way is compiled into the loops, as the
/// library's can't be.
pub fn each_overlap(case: &Case, out: &mut [u8], overlap: Overlap) -> Answer {
    let overlap = black_box(overlap);
    let codes = case.codes();
    let mut at = 0;
    for (i, a) in codes.iter().enumerate() {
        for (j, b) in codes.iter().enumerate() {
            out[at] = overlap(a, is_turned(i), b, is_turned(j)) as u8;
            at += 1;
        }
    }
    Answer::Length(at as u32)
}

/// A check's answer: the refusal's number, or 0 and whether held; then the difference, or the
/// number of the code that is missing.
#[derive(Clone, Copy, Debug, Default, PartialEq)]
pub struct Verdict {
    pub refused: u8,
    pub held: bool,
    pub missing: u32,
    pub difference: i32,
}

/// The length of what is written, 0 where refused; or a check's answer.
#[derive(Clone, Copy, Debug, PartialEq)]
pub enum Answer {
    Length(u32),
    Verdict(Verdict),
}

pub type Call = fn(&Case, &mut [u8]) -> Answer;

/// What a call answers and leaves in the whole buffer.
#[derive(PartialEq)]
pub struct Outcome {
    pub answer: Answer,
    pub buffer: Vec<u8>,
}

/// What the buffer holds before each call: no byte of a result, so that every one that is written
/// shows.
pub const UNTOUCHED: u8 = b'.';

impl Outcome {
    /// A result at the beginning of a buffer of so many bytes.
    pub fn written(result: &[u8], room: usize) -> Outcome {
        Outcome {
            answer: Answer::Length(result.len() as u32),
            buffer: [result, &vec![UNTOUCHED; room - result.len()]].concat(),
        }
    }

    pub fn of(call: Call, case: &Case, room: usize) -> Outcome {
        let mut buffer = vec![UNTOUCHED; room];
        let answer = call(case, &mut buffer);
        Outcome { answer, buffer }
    }
}

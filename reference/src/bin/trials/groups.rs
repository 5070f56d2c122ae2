//! What is written: a line for each group of cases, and texts in full where
//! they are asked for.

use crate::calls::run;
use crate::cases::{Case, Group, Work};
use crate::making::made;
use crate::text::{Sum, Text};
use std::io::{self, Write};

/// The cases of a group whose texts are written in full.
#[derive(Clone, Copy, PartialEq)]
pub enum Shown {
    None,
    First,
    All,
}

impl Shown {
    /// By the first byte of the first argument.
    pub fn by(argument: &[u8]) -> Shown {
        match argument.first() {
            Some(b'f') => Shown::First,
            Some(b'a') => Shown::All,
            _ => Shown::None,
        }
    }
}

pub fn write(groups: &[Group], shown: Shown, out: &mut impl Write) -> io::Result<()> {
    let (mut cases, mut sums) = (0, Sum::default());
    writeln!(out, "group,cases,checksum")?;
    for group in groups {
        if shown != Shown::None {
            writeln!(out, "= {}", group.title)?;
        }
        let mut run = Run {
            shown,
            out,
            text: Text::default(),
            cases: 0,
        };
        run.group(group)?;
        let (count, sum) = (run.cases, run.text.sum.value());
        writeln!(out, "{},{count},{sum}", group.title)?;
        cases += count;
        sums.feed(sum);
    }
    writeln!(out, "all,{cases},{}", sums.value())
}

/// A group's cases so far.
struct Run<'a, Out> {
    shown: Shown,
    out: &'a mut Out,
    text: Text,
    cases: usize,
}

impl<Out: Write> Run<'_, Out> {
    fn group(&mut self, group: &Group) -> io::Result<()> {
        for work in &group.work {
            match work {
                Work::Case(case) => self.case(case)?,
                Work::Make(make) => {
                    for list in made(make) {
                        self.case(&Case::List(list))?;
                    }
                }
            }
        }
        Ok(())
    }

    fn case(&mut self, case: &Case) -> io::Result<()> {
        run(case, self.cases, &mut self.text);
        let first = self.shown == Shown::First && self.cases == 0;
        if first || self.shown == Shown::All {
            self.out.write_all(&self.text.said)?;
        }
        self.text.said.clear();
        self.cases += 1;
        Ok(())
    }
}

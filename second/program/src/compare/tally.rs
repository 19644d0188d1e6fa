//! What a comparison counts, and the report of it.

use std::collections::BTreeMap;
use std::fmt::Debug;
use std::io::{self, Write};

const MOST_SHOWN: usize = 5;

/// The calls that are compared, each with its answers.
pub type Calls = &'static [(&'static str, &'static [u32])];

pub struct Tally {
    /// The answers that must come, and how often each did.
    expected: Calls,
    answers: BTreeMap<(&'static str, u32), usize>,
    passed: usize,
    failed: usize,
}

impl Tally {
    pub fn new(expected: Calls) -> Tally {
        Tally {
            expected,
            answers: BTreeMap::new(),
            passed: 0,
            failed: 0,
        }
    }

    /// Counts one call by the proved side's answer, which may be any number.
    pub fn answer(&mut self, call: &'static str, number: u32) {
        *self.answers.entry((call, number)).or_default() += 1;
    }

    /// Counts one sample, whose calls all agree or not.
    pub fn sample(
        &mut self,
        sample: &impl Debug,
        agree: bool,
        out: &mut dyn Write,
    ) -> io::Result<()> {
        if agree {
            self.passed += 1;
            return Ok(());
        }
        self.failed += 1;
        if self.failed <= MOST_SHOWN {
            writeln!(out, "differs on {sample:?}")?;
        }
        Ok(())
    }

    /// A call's expected answers that never came.
    fn missing(&self, call: &'static str, expected: &[u32]) -> Vec<u32> {
        let mut missing = expected.to_vec();
        missing.retain(|&number| !self.answers.contains_key(&(call, number)));
        missing
    }

    /// Prints what was counted and answers whether nothing failed; a missing
    /// answer is a failure.
    pub fn report(&self, out: &mut dyn Write) -> io::Result<bool> {
        let mut failed = self.failed;
        for &(call, expected) in self.expected {
            let answers = self.answers.iter().filter(|((of, _), _)| *of == call);
            let calls: usize = answers.clone().map(|(_, times)| times).sum();
            write!(out, "{call}: {calls} calls; answers")?;
            for ((_, number), times) in answers {
                write!(out, " {number}: {times}")?;
            }
            let missing = self.missing(call, expected);
            if !missing.is_empty() {
                write!(out, "; never {missing:?}")?;
            }
            writeln!(out)?;
            failed += missing.len();
        }
        writeln!(out, "{} passed, {failed} failed", self.passed)?;
        Ok(failed == 0)
    }
}

//! What the comparisons of proved calls with this program's share: samples are
//! drawn sort by sort, each is given to both sides in buffers that are poisoned
//! alike, and a tally says what came out.

#[cfg(feature = "proved")]
pub mod apply;
#[cfg(feature = "proved")]
pub mod graph;
mod judged;
mod tally;
#[cfg(test)]
mod tests;
#[cfg(feature = "proved")]
pub mod text;

use model::Refusal;
use samples::Random;
use std::fmt::Debug;
use std::io::{self, Write};
use std::iter;
use tally::{Calls, Tally};

const SEED: u64 = 1;

/// Samples of one sort: its name, how many, and how one is drawn.
pub type Sort<T> = (&'static str, usize, fn(&mut Random) -> T);

/// One comparison from its first sample to its report.
pub struct Comparison<'a> {
    random: Random,
    tally: Tally,
    out: &'a mut dyn Write,
}

impl<'a> Comparison<'a> {
    /// Each call must give each of its answers, since one that never comes is
    /// not compared.
    pub fn new(calls: Calls, out: &'a mut dyn Write) -> Comparison<'a> {
        Comparison {
            random: Random::new(SEED),
            tally: Tally::new(calls),
            out,
        }
    }

    /// Compares samples of each sort under its name.
    pub fn sorts<T: Debug>(
        &mut self,
        what: &str,
        sorts: &[Sort<T>],
        same: impl Fn(&mut Random, &T, &mut Tally) -> bool,
    ) -> io::Result<()> {
        for (name, count, draw) in sorts {
            let drawn = iter::repeat_with(|| draw(&mut self.random)).take(*count);
            let drawn = drawn.collect();
            self.samples(&format!("{count} {what}: {name}"), drawn, &same)?;
        }
        Ok(())
    }

    /// Compares samples under a title; `same` makes a sample's calls and says
    /// whether all of them agree.
    pub fn samples<T: Debug>(
        &mut self,
        title: &str,
        samples: Vec<T>,
        same: impl Fn(&mut Random, &T, &mut Tally) -> bool,
    ) -> io::Result<()> {
        writeln!(self.out, "{title}")?;
        for sample in samples {
            let agree = same(&mut self.random, &sample, &mut self.tally);
            self.tally.sample(&sample, agree, self.out)?;
        }
        Ok(())
    }

    /// Prints the tally and answers whether nothing failed.
    pub fn report(self) -> io::Result<bool> {
        self.tally.report(self.out)
    }
}

/// Random contents for lent memory, so that a word that is written or left
/// against the contract shows.
pub fn poisoned<T>(random: &mut Random, length: usize, narrowed: fn(u64) -> T) -> Vec<T> {
    iter::repeat_with(|| narrowed(random.word()))
        .take(length)
        .collect()
}

/// An answer in numbers; what comes with it is as before where it is refused.
pub fn in_numbers<T>(answer: Result<T, Refusal>, before: T) -> (u32, T) {
    match answer {
        Ok(values) => (0, values),
        Err(refusal) => (refusal.number(), before),
    }
}

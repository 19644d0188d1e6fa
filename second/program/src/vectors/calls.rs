//! The calls with their arguments, as they are drawn, written and answered.

mod graphs;
mod texts;
mod windows;

pub use graphs::{Evaluate, Run};
pub use texts::{Read, Write};
pub use windows::{Apply, List, Pick, Table};

use super::Row;
use model::Refusal;
use samples::Random;

pub trait Call: Sized {
    /// The name that it has in the definitions.
    const NAME: &'static str;

    /// Draws arguments that may get any answer.
    fn draw(random: &mut Random) -> Self;

    /// The arguments as the definitions write them.
    fn arguments(&self) -> Vec<String>;

    fn told(&self) -> Told;

    fn row(&self, told: Told) -> Row {
        Row {
            call: Self::NAME,
            arguments: self.arguments(),
            says: [told.answer, told.left].concat(),
        }
    }
}

/// What this program gives.
pub struct Told {
    /// 0 and the values, or the refusal's number.
    pub answer: Vec<u64>,
    /// The lent words as they are left.
    pub left: Vec<u64>,
}

impl Told {
    fn new<const N: usize>(result: Result<[u64; N], Refusal>, left: &[&[u32]]) -> Told {
        let answer = match result {
            Ok(values) => [&[0], &values[..]].concat(),
            Err(refusal) => vec![u64::from(refusal.number())],
        };
        let left = left.concat().into_iter().map(u64::from).collect();
        Told { answer, left }
    }

    pub fn number(&self) -> u64 {
        self.answer[0]
    }

    pub fn is(&self, refusal: Refusal) -> bool {
        self.number() == u64::from(refusal.number())
    }

    pub fn is_accepted(&self) -> bool {
        self.number() == 0
    }
}

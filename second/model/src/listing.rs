//! The list has one record for each replacement whose table equals the root's
//! and whose gain is at least 1: kind 0 by literal, then kind 1 by (a, b, c),
//! ascending. An empty list is a normal result.

use crate::reach::{Gains, Reach};
use crate::window::{self, Window};
use crate::{Graph, Leaves, Lit, Proposal, Refusal, Var};

#[derive(Clone, Copy, Debug, Default, PartialEq, Eq)]
pub struct Record {
    pub kind: u32,
    pub first: u32,
    pub second: u32,
    pub turned: u32,
    pub gain: i64,
}

impl Record {
    pub fn new(proposal: &Proposal, gain: i64) -> Record {
        Record {
            kind: proposal.kind,
            first: proposal.first,
            second: proposal.second,
            turned: proposal.turned,
            gain,
        }
    }

    /// The replacement without its gain.
    pub fn proposal(&self) -> Proposal {
        Proposal {
            kind: self.kind,
            first: self.first,
            second: self.second,
            turned: self.turned,
        }
    }
}

/// Why a list is refused; without room the count needed is told too.
#[derive(Clone, Copy, Debug, PartialEq, Eq)]
pub enum ListRefusal {
    Refused(Refusal),
    NoRoom { needed: usize },
}

impl ListRefusal {
    pub fn refusal(self) -> Refusal {
        match self {
            ListRefusal::Refused(refusal) => refusal,
            ListRefusal::NoRoom { .. } => Refusal::NoRoom,
        }
    }
}

/// The search for good replacements at one root.
pub struct Search<'a> {
    gains: Gains<'a>,
    wanted: u64,
    /// Each literal of a divisor with its table, ascending. Variable 0 is
    /// always covered, so its two literals stand first.
    literals: Vec<(Lit, u64)>,
}

impl<'a> Search<'a> {
    pub fn new(graph: &Graph, reach: &'a Reach, root: Var, leaves: &Leaves) -> Search<'a> {
        let window = Window::new(graph, root, leaves);
        let divisors = (0..root.0).map(Var).filter(|&var| window.is_divisor(var));
        let literals = divisors
            .flat_map(|var| [var.lit(false), var.lit(true)])
            .map(|lit| (lit, window.table_of(lit)))
            .collect();
        Search {
            gains: Gains::new(graph, reach, root),
            wanted: window.root_table(),
            literals,
        }
    }

    /// The replacements of kind 0 with the root's table.
    fn single_literals(&self) -> impl Iterator<Item = Proposal> + '_ {
        let equal = self
            .literals
            .iter()
            .filter(|(_, table)| *table == self.wanted);
        equal.map(|&(lit, _)| Proposal::single(lit))
    }

    /// The replacements of kind 1 with the root's table: every pair is tried.
    fn pairs(&self) -> impl Iterator<Item = Proposal> + '_ {
        let literals = &self.literals[2..];
        let firsts = literals.iter().enumerate();
        firsts.flat_map(move |(place, &(a, a_table))| {
            // Literals stand two a variable: those before are on lower ones.
            let seconds = literals[..place - place % 2].iter();
            seconds.filter_map(move |&(b, b_table)| {
                let turned = self.turned_bit(a_table & b_table)?;
                Some(Proposal::pair(a, b, turned))
            })
        })
    }

    /// The turned bit with which a product has the root's table: 0 where they
    /// differ nowhere, 1 where they differ everywhere.
    fn turned_bit(&self, product: u64) -> Option<u32> {
        match product ^ self.wanted {
            0 => Some(0),
            u64::MAX => Some(1),
            _ => None,
        }
    }

    /// The record of greatest gain, the earliest on ties. The search ends
    /// early where a record gains the most that any can.
    pub fn best(&self) -> Option<Record> {
        let mut best: Option<Record> = None;
        for record in self.good() {
            if record.gain > best.map_or(0, |best| best.gain) {
                best = Some(record);
            }
            if record.gain == self.gains.most() {
                break;
            }
        }
        best
    }

    /// The list, record by record.
    pub fn good(&self) -> impl Iterator<Item = Record> + '_ {
        let equal = self.single_literals().chain(self.pairs());
        let records = equal.map(|proposal| Record::new(&proposal, self.gains.of(&proposal)));
        records.filter(|record| record.gain >= 1)
    }
}

/// Stores the whole list in lent places; answers how many records it has.
pub fn list(
    graph: &Graph,
    root: Var,
    leaves: &Leaves,
    records: &mut [Record],
) -> Result<usize, ListRefusal> {
    window::check(graph, root, leaves).map_err(ListRefusal::Refused)?;
    let reach = Reach::new(graph);
    let search = Search::new(graph, &reach, root, leaves);
    let found: Vec<Record> = search.good().collect();
    let needed = found.len();
    if needed > records.len() {
        return Err(ListRefusal::NoRoom { needed });
    }
    records[..needed].copy_from_slice(&found);
    Ok(needed)
}

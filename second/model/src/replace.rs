//! A replacement of kind 0 lets a covered literal below the root stand for the
//! root; one of kind 1 makes the root the AND of two such literals, turned or
//! not. Its gain is R before less R after.

use crate::window::{self, Window};
use crate::{Graph, Leaves, Lit, Refusal, Var};

/// A proposed replacement; it carries no gain.
#[derive(Clone, Copy, Debug, PartialEq, Eq)]
pub struct Proposal {
    pub kind: u32,
    pub first: u32,
    pub second: u32,
    pub turned: u32,
}

impl Proposal {
    /// Kind 0: the literal stands for the root.
    pub fn single(literal: Lit) -> Proposal {
        Proposal {
            kind: 0,
            first: literal.0,
            second: 0,
            turned: 0,
        }
    }

    /// Kind 1: the root becomes AND(a, b), turned or not.
    pub fn pair(a: Lit, b: Lit, turned: u32) -> Proposal {
        Proposal {
            kind: 1,
            first: a.0,
            second: b.0,
            turned,
        }
    }

    /// Whether the fields keep the rule of their kind.
    pub fn keeps_rule(&self, window: &Window) -> bool {
        let (first, second) = (Lit(self.first).var(), Lit(self.second).var());
        match self.kind {
            0 => self.second == 0 && self.turned == 0 && window.is_divisor(first),
            1 => {
                self.turned <= 1
                    && window.is_divisor(first)
                    && window.is_divisor(second)
                    && Var(0) < second
                    && second < first
            }
            _ => false,
        }
    }

    /// The table of the replacement.
    pub fn table(&self, window: &Window) -> u64 {
        let first = window.table_of(Lit(self.first));
        if self.kind == 0 {
            return first;
        }
        let product = first & window.table_of(Lit(self.second));
        if self.turned == 1 {
            !product
        } else {
            product
        }
    }

    /// What a plain reference to the root becomes.
    fn stand_in(&self, root: Var) -> Lit {
        if self.kind == 0 {
            Lit(self.first)
        } else {
            root.lit(self.turned == 1)
        }
    }
}

/// The graph with the references and the root's gate replaced, each gate's
/// fanins larger first; no gate is dropped yet.
pub fn rewired(graph: &Graph, root: Var, proposal: &Proposal) -> Graph {
    let mut after = graph.clone();
    let stand_in = proposal.stand_in(root);
    for word in after.gates.iter_mut().chain(&mut after.outputs) {
        let reference = Lit(*word);
        if reference.var() == root {
            *word = stand_in.turned(reference.is_complemented()).0;
        }
    }
    if let (1, Some(place)) = (proposal.kind, graph.place(root)) {
        after.gates[place] = proposal.first;
        after.gates[place + 1] = proposal.second;
    }
    for pair in after.gates.chunks_exact_mut(2) {
        pair.sort_unstable_by(|one, other| other.cmp(one));
    }
    after
}

/// The graph as it is handed back.
pub fn finished(graph: &Graph, root: Var, proposal: &Proposal) -> Graph {
    rewired(graph, root, proposal).dropped()
}

/// R before less R after, over the two graphs themselves.
pub fn gain(graph: &Graph, root: Var, proposal: &Proposal) -> i64 {
    let before = graph.gates_in_use() as i64;
    let after = rewired(graph, root, proposal).gates_in_use() as i64;
    before - after
}

/// Applies a good replacement; answers the gates and outputs written.
pub fn apply(
    graph: &Graph,
    root: Var,
    leaves: &Leaves,
    proposal: &Proposal,
    gates: &mut [u32],
    outputs: &mut [u32],
) -> Result<(usize, usize), Refusal> {
    window::check(graph, root, leaves)?;
    let window = Window::new(graph, root, leaves);
    Refusal::BadCandidate.unless(proposal.keeps_rule(&window))?;
    Refusal::NotEqual.unless(proposal.table(&window) == window.root_table())?;
    Refusal::NoGain.unless(gain(graph, root, proposal) >= 1)?;
    let after = finished(graph, root, proposal);
    Refusal::OrderLost.unless(after.is_well_formed())?;
    after.store(gates, outputs)
}

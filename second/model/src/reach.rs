//! Which variables another reaches through fanins. From it follows R after a
//! replacement without building the graph: in use are the gates that outputs
//! reach without passing the root, and those that the new literals reach.

use crate::graph::{MOST_GATES, MOST_INPUTS};
use crate::{Graph, Lit, Proposal, Var};

/// One bit a variable, the constant included.
const WORDS: usize = (1 + MOST_INPUTS as usize + MOST_GATES).div_ceil(64);

#[derive(Clone, Copy)]
struct VarSet([u64; WORDS]);

impl VarSet {
    const EMPTY: VarSet = VarSet([0; WORDS]);

    fn add(&mut self, var: Var) {
        self.0[var.index() / 64] |= 1 << (var.index() % 64);
    }

    fn has(&self, var: Var) -> bool {
        (self.0[var.index() / 64] >> (var.index() % 64)) & 1 == 1
    }

    fn union(&self, other: &VarSet) -> VarSet {
        let mut both = *self;
        for (word, more) in both.0.iter_mut().zip(other.0) {
            *word |= more;
        }
        both
    }

    /// How many variables are in one of two sets but not in the known one.
    /// Most words are 0, and that test is cheaper than a count.
    fn count_new(one: &VarSet, other: &VarSet, known: &VarSet) -> u32 {
        let words = one.0.iter().zip(&other.0).zip(&known.0);
        words
            .map(|((one, other), known)| (one | other) & !known)
            .filter(|&new| new != 0)
            .map(u64::count_ones)
            .sum()
    }
}

/// What the outputs reach, without passing the root if one is given. The
/// constant and the inputs are always in it, so that only gates differ.
fn reached(graph: &Graph, root: Option<Var>) -> VarSet {
    let mut reached = VarSet::EMPTY;
    for var in 0..=graph.inputs as u32 {
        reached.add(Var(var));
    }
    for &output in &graph.outputs {
        reached.add(Lit(output).var());
    }
    for (gate, high, low) in graph.numbered_gates().rev() {
        if reached.has(gate) && root != Some(gate) {
            reached.add(high.var());
            reached.add(low.var());
        }
    }
    reached
}

/// What a graph's outputs and each of its variables reach.
pub struct Reach {
    outputs: VarSet,
    /// For each variable the gates that it reaches, itself included.
    cones: Vec<VarSet>,
}

impl Reach {
    pub fn new(graph: &Graph) -> Reach {
        let mut cones = vec![VarSet::EMPTY; graph.inputs as usize + 1];
        for (gate, high, low) in graph.numbered_gates() {
            let mut cone = cones[high.var().index()].union(&cones[low.var().index()]);
            cone.add(gate);
            cones.push(cone);
        }
        let outputs = reached(graph, None);
        Reach { outputs, cones }
    }
}

/// The gains of all replacements at one root.
pub struct Gains<'a> {
    reach: &'a Reach,
    /// What outputs reach without passing the root, which is in it.
    kept: VarSet,
    /// How many gates are in use through the root alone.
    freed: i64,
}

impl<'a> Gains<'a> {
    pub fn new(graph: &Graph, reach: &'a Reach, root: Var) -> Gains<'a> {
        let kept = reached(graph, Some(root));
        let freed = VarSet::count_new(&reach.outputs, &VarSet::EMPTY, &kept);
        Gains {
            reach,
            kept,
            freed: i64::from(freed),
        }
    }

    /// No gain is greater: all that is freed stays so, and the root goes.
    pub fn most(&self) -> i64 {
        self.freed + 1
    }

    /// Kind 0 lets the root go; kind 1 keeps it over its new fanins. The
    /// second literal of kind 0 is the constant, which reaches nothing.
    pub fn of(&self, proposal: &Proposal) -> i64 {
        let root_gone = i64::from(proposal.kind == 0);
        let (first, second) = (Lit(proposal.first).var(), Lit(proposal.second).var());
        self.freed + root_gone - self.regained(first, second)
    }

    /// How many gates two variables bring back into use.
    fn regained(&self, first: Var, second: Var) -> i64 {
        let cones = &self.reach.cones;
        let (first, second) = (&cones[first.index()], &cones[second.index()]);
        i64::from(VarSet::count_new(first, second, &self.kept))
    }
}

//! A leaf set is a count and six places, ascending without repeats, unused
//! places 0. The leaf rule starts with a gate's fanin variables and expands
//! the leaf that gives the smallest set, until no expansion fits.

use crate::{Graph, Refusal, Var};

pub const MOST_LEAVES: usize = 6;

/// A leaf set as it is lent: until it is checked it may hold anything.
#[derive(Clone, Copy, Debug, Default, PartialEq, Eq)]
pub struct Leaves {
    pub count: usize,
    pub places: [u32; MOST_LEAVES],
}

impl Leaves {
    /// The set of the given variables; none if they are more than six.
    pub fn of(vars: impl IntoIterator<Item = Var>) -> Option<Leaves> {
        vars.into_iter().try_fold(Leaves::default(), Leaves::with)
    }

    /// The count is tested first: only then can the places be read by it.
    pub fn check(&self, root: Var) -> Result<(), Refusal> {
        let well_set_down = self.count <= MOST_LEAVES && {
            let (used, unused) = self.places.split_at(self.count);
            used.iter().all(|&leaf| 0 < leaf && leaf < root.0)
                && used.windows(2).all(|pair| pair[0] < pair[1])
                && unused.iter().all(|&place| place == 0)
        };
        Refusal::BadLeaves.unless(well_set_down)
    }

    /// The leaves of a checked set, ascending.
    pub fn vars(&self) -> impl Iterator<Item = Var> + '_ {
        self.places[..self.count].iter().map(|&leaf| Var(leaf))
    }

    pub fn has(self, var: Var) -> bool {
        self.vars().any(|leaf| leaf == var)
    }

    /// The set with one more leaf, in order; none if it does not fit. The
    /// constant is no leaf, and a leaf that is there is not repeated.
    pub fn with(mut self, var: Var) -> Option<Leaves> {
        if var == Var(0) || self.has(var) {
            return Some(self);
        }
        if self.count == MOST_LEAVES {
            return None;
        }
        let place = self.vars().filter(|&leaf| leaf < var).count();
        self.places[place..=self.count].rotate_right(1);
        self.places[place] = var.0;
        self.count += 1;
        Some(self)
    }

    /// The set without a leaf that it has.
    fn without(mut self, leaf: Var) -> Leaves {
        let place = self.vars().filter(|&other| other < leaf).count();
        self.places[place..self.count].rotate_left(1);
        self.count -= 1;
        self.places[self.count] = 0;
        self
    }

    /// A gate leaf exchanged for its fanin variables; none for an input, or
    /// where more than six leaves would be left.
    pub fn expanded(self, graph: &Graph, leaf: Var) -> Option<Leaves> {
        let [high, low] = graph.fanins(leaf)?;
        self.without(leaf).with(high.var())?.with(low.var())
    }

    /// The smallest expansion, ties to the highest expanded variable. Leaves
    /// ascend, so the later of two equals is the higher.
    fn best_expansion(self, graph: &Graph) -> Option<Leaves> {
        self.vars()
            .filter_map(|leaf| self.expanded(graph, leaf))
            .reduce(|best, next| if next.count <= best.count { next } else { best })
    }
}

/// The leaf rule at a gate. It ends since a variable gives way to lower ones
/// only; one that gave way may come back, so no bound on the steps is set.
pub fn leaf_rule(graph: &Graph, root: Var) -> Leaves {
    let fanins = graph.fanins(root).into_iter().flatten();
    let mut leaves = Leaves::of(fanins.map(|lit| lit.var())).unwrap_or_default();
    while let Some(expansion) = leaves.best_expansion(graph) {
        leaves = expansion;
    }
    leaves
}

/// The leaves that the rule picks for a gate in use.
pub fn pick_leaves(graph: &Graph, root: Var) -> Result<Leaves, Refusal> {
    graph.check()?;
    graph.check_root(root)?;
    Ok(leaf_rule(graph, root))
}

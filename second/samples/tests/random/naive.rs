//! Slow and plain restatements of the rules' definitions.

use model::{table, Graph, Leaves, Lit, Proposal, Var};
use std::collections::BTreeSet;

/// The variables that the outputs reach, followed one by one.
pub fn reached(graph: &Graph) -> BTreeSet<Var> {
    let mut waiting: Vec<Var> = graph.outputs.iter().map(|&o| Lit(o).var()).collect();
    let mut reached = BTreeSet::new();
    while let Some(var) = waiting.pop() {
        if reached.insert(var) {
            let fanins = graph.fanins(var).into_iter().flatten();
            waiting.extend(fanins.map(|lit| lit.var()));
        }
    }
    reached
}

/// R: the gates among them.
pub fn gates_in_use(graph: &Graph) -> usize {
    let is_gate = |var: &&Var| u64::from(var.0) > graph.inputs;
    reached(graph).iter().filter(is_gate).count()
}

/// A set of variables as a leaf set.
pub fn as_leaves(vars: &BTreeSet<Var>) -> Leaves {
    let mut leaves = Leaves {
        count: vars.len(),
        places: [0; 6],
    };
    for (place, var) in leaves.places.iter_mut().zip(vars) {
        *place = var.0;
    }
    leaves
}

/// The leaf rule over sets of any size; also the number of expansions.
pub fn leaf_rule(graph: &Graph, root: Var) -> (Leaves, usize) {
    let fanins = |var| graph.fanins(var).map(|pair| pair.map(|lit| lit.var()));
    let mut leaves: BTreeSet<Var> = fanins(root).into_iter().flatten().collect();
    leaves.remove(&Var(0));
    let mut expansions = 0;
    loop {
        let expand = |&leaf: &Var| {
            let mut set: BTreeSet<Var> = leaves.clone();
            set.remove(&leaf);
            set.extend(fanins(leaf)?);
            set.remove(&Var(0));
            (set.len() <= 6).then_some((leaf, set))
        };
        let fitting: Vec<(Var, BTreeSet<Var>)> = leaves.iter().filter_map(expand).collect();
        let best = fitting
            .into_iter()
            .min_by_key(|(leaf, set)| (set.len(), std::cmp::Reverse(*leaf)));
        let Some((_, set)) = best else {
            return (as_leaves(&leaves), expansions);
        };
        leaves = set;
        expansions += 1;
    }
}

/// Every proposal that names literals up to the root's, good or bad, in the
/// order of the list.
pub fn proposals(root: Var) -> impl Iterator<Item = Proposal> {
    let literals = move || (0..=root.lit(true).0).map(Lit);
    let pairs = literals().flat_map(move |a| literals().map(move |b| (a, b)));
    let turned = |(a, b)| [Proposal::pair(a, b, 0), Proposal::pair(a, b, 1)];
    literals()
        .map(Proposal::single)
        .chain(pairs.flat_map(turned))
}

/// The table of a covered variable, by a graph in which it is an output.
pub fn table_of(graph: &Graph, lit: Lit, leaves: &Leaves) -> Option<u64> {
    let var = lit.var();
    let turn = if lit.is_complemented() { u64::MAX } else { 0 };
    if var == Var(0) {
        return Some(turn);
    }
    if let Some(j) = leaves.vars().position(|leaf| leaf == var) {
        let bits = (0..64u64).filter(|i| (i >> j) & 1 == 1);
        return Some(turn ^ bits.map(|i| 1 << i).sum::<u64>());
    }
    let below = Leaves::of(leaves.vars().filter(|&leaf| leaf < var))?;
    let mut shown = graph.clone();
    shown.outputs = vec![lit.0];
    // Leaves ascend, so those below the variable keep their places.
    table(&shown, var, &below).ok().map(|table| table ^ turn)
}

//! Arguments of the calls on one graph, good and bad of every sort. A bad graph
//! has no good ones and gets any.

use model::graph::MOST_INPUTS;
use model::leaves::leaf_rule;
use model::{Graph, Leaves, Var};
use samples::{assignments, windows, Random};
use std::iter;

/// How many bad assignments a graph gets, and how many roots, both of gates in
/// use and of others.
const BAD_ASSIGNMENTS: usize = 3;
const ROOTS_TO_PICK_FOR: usize = 4;
const ROOTS_OF_WINDOWS: usize = 3;

/// Assignments, each with a number of words for the values: exact, longer and
/// too short by one.
pub fn evaluations(random: &mut Random, graph: &Graph) -> Vec<(Vec<u32>, usize)> {
    // Only a bad graph has more inputs.
    let inputs = graph.inputs.min(MOST_INPUTS + 1);
    let mut lent = assignments::many(random, inputs, 2, 3);
    let bad = iter::repeat_with(|| assignments::bad(random, inputs));
    lent.extend(bad.take(BAD_ASSIGNMENTS));
    let need = graph.outputs.len();
    let mut rooms = vec![need, need + random.between(1, 9)];
    rooms.extend(need.checked_sub(1));
    let with_room = |&room| lent.iter().map(move |values| (values.clone(), room));
    rooms.iter().flat_map(with_room).collect()
}

/// Gates in use, and roots that are refused.
pub fn roots(random: &mut Random, graph: &Graph) -> Vec<Var> {
    (0..ROOTS_TO_PICK_FOR)
        .flat_map(|_| [gate(random, graph), no_gate(random, graph)])
        .collect()
}

/// Gates in use, each with leaves of every sort, and roots that are refused,
/// each with leaves of some sort.
pub fn windows(random: &mut Random, graph: &Graph) -> Vec<(Var, Leaves)> {
    let mut windows = Vec::new();
    for _ in 0..ROOTS_OF_WINDOWS {
        let root = gate(random, graph);
        let sets = leaf_sets(random, graph, root);
        windows.push((no_gate(random, graph), random.pick(&sets)));
        windows.extend(sets.into_iter().map(|leaves| (root, leaves)));
    }
    windows
}

/// A gate in use if there is one.
fn gate(random: &mut Random, graph: &Graph) -> Var {
    let good = match graph.is_well_formed() {
        true => windows::good_root(random, graph),
        false => None,
    };
    good.unwrap_or_else(|| no_gate(random, graph))
}

/// A root that is refused.
fn no_gate(random: &mut Random, graph: &Graph) -> Var {
    if graph.is_well_formed() {
        return windows::bad_root(random, graph);
    }
    let last = graph.inputs.min(MOST_INPUTS) as u32 + graph.gate_count() as u32;
    match random.once_in(4) {
        true => Var(random.pick(&[1 << 31, u32::MAX])),
        false => Var(random.word_between(0, last + 1)),
    }
}

/// Random leaves, good and bad, and noise; and on a good graph leaves that cut
/// and those that the rule picks, as they are and damaged.
fn leaf_sets(random: &mut Random, graph: &Graph, root: Var) -> Vec<Leaves> {
    let mut sets = vec![
        windows::good_leaves(random, root),
        windows::bad_leaves(random, root),
        windows::noise(random, root),
        windows::noise(random, root),
    ];
    if graph.is_well_formed() {
        for leaves in [windows::cut(random, graph, root), leaf_rule(graph, root)] {
            sets.extend([
                leaves,
                windows::one_leaf_changed(random, root, leaves),
                windows::with_fault(random, root, leaves),
                with_higher_count(leaves, 1),
                with_higher_count(leaves, 1 << 32),
            ]);
        }
    }
    sets
}

/// A count too high by so many: by 1 it takes in a place that is 0, if one is
/// left; by 1 << 32 its low half is the right one.
fn with_higher_count(leaves: Leaves, more: usize) -> Leaves {
    Leaves {
        count: leaves.count + more,
        ..leaves
    }
}

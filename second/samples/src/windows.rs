//! Random roots and leaf sets, good and bad of every sort.

use crate::Random;
use model::leaves::MOST_LEAVES;
use model::{Graph, Leaves, Var};

/// The gates in use, lowest first.
pub fn gates_in_use(graph: &Graph) -> Vec<Var> {
    let marks = graph.marks();
    let gates = graph.numbered_gates().map(|gate| gate.0);
    gates.filter(|gate| marks[gate.index()]).collect()
}

/// A gate in use, if there is one.
pub fn good_root(random: &mut Random, graph: &Graph) -> Option<Var> {
    let in_use = gates_in_use(graph);
    (!in_use.is_empty()).then(|| random.pick(&in_use))
}

/// The constant, an input, a gate not in use or no variable at all.
pub fn bad_root(random: &mut Random, graph: &Graph) -> Var {
    let (marks, last) = (graph.marks(), graph.last_var());
    let is_gate = |var: &Var| u64::from(var.0) > graph.inputs;
    let mut bad: Vec<Var> = (0..=last.0).map(Var).collect();
    bad.retain(|var| !is_gate(var) || !marks[var.index()]);
    bad.extend([Var(last.0 + 1), Var(1 << 31), Var(u32::MAX)]);
    random.pick(&bad)
}

/// Up to six leaves, well set down, that cut the root or do not.
pub fn good_leaves(random: &mut Random, root: Var) -> Leaves {
    let mut leaves = Leaves::default();
    for _ in 0..random.between(0, 6) {
        let leaf = Var(random.word_between(0, root.0.saturating_sub(1)));
        leaves = leaves.with(leaf).unwrap_or(leaves);
    }
    leaves
}

/// Leaves that cut the root: its fanins after some random expansions.
pub fn cut(random: &mut Random, graph: &Graph, root: Var) -> Leaves {
    let fanins = graph.fanins(root).into_iter().flatten();
    let mut leaves = Leaves::of(fanins.map(|lit| lit.var())).unwrap_or_default();
    for _ in 0..random.between(0, 30) {
        let vars: Vec<Var> = leaves.vars().collect();
        if vars.is_empty() {
            break;
        }
        let expansion = leaves.expanded(graph, random.pick(&vars));
        leaves = expansion.unwrap_or(leaves);
    }
    leaves
}

/// A set with one leaf more or one fewer; one that cut may do so no more.
pub fn one_leaf_changed(random: &mut Random, root: Var, leaves: Leaves) -> Leaves {
    let vars: Vec<Var> = leaves.vars().collect();
    if vars.is_empty() || random.coin() {
        let more = Var(random.word_between(0, root.0.saturating_sub(1)));
        return leaves.with(more).unwrap_or(leaves);
    }
    let gone = random.pick(&vars);
    let rest = vars.into_iter().filter(|&leaf| leaf != gone);
    Leaves::of(rest).unwrap_or(leaves)
}

/// Random leaves with one fault.
pub fn bad_leaves(random: &mut Random, root: Var) -> Leaves {
    let leaves = good_leaves(random, root);
    with_fault(random, root, leaves)
}

/// A leaf set that is well set down, after one fault.
pub fn with_fault(random: &mut Random, root: Var, mut leaves: Leaves) -> Leaves {
    let count = leaves.count;
    match random.between(0, 5) {
        0 => leaves.count = random.pick(&[7, 8, 64, 1 << 32, usize::MAX]),
        1 if count >= 2 => leaves.places[..count].reverse(),
        2 if count >= 2 => leaves.places[1] = leaves.places[0],
        3 if count >= 1 => leaves.places[0] = 0,
        4 if count >= 1 => {
            let past = root.0.saturating_add(1);
            leaves.places[count - 1] = random.pick(&[root.0, past, u32::MAX]);
        }
        _ if count < 6 => leaves.places[random.between(count, 5)] = 1,
        _ => leaves.count = 7,
    }
    leaves
}

/// Any count and any places: small ones as a rule, and many places 0, so that
/// at times a set is well set down.
pub fn noise(random: &mut Random, root: Var) -> Leaves {
    let count = match random.once_in(8) {
        true => {
            let any = random.word() as usize;
            random.pick(&[any, 1 << 32, usize::MAX])
        }
        false => random.between(0, 8),
    };
    let places = [0; MOST_LEAVES].map(|_| match random.between(0, 15) {
        0 => random.word() as u32,
        1..=7 => 0,
        _ => random.word_between(0, root.0.saturating_add(1)),
    });
    Leaves { count, places }
}

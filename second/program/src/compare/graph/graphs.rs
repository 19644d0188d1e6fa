//! The graphs to compare on: well formed of every size, damage of every sort,
//! and words and counts at the limits.

use crate::compare::Sort;
use model::graph::MOST_GATES;
use model::{Graph, Var};
use samples::graphs::{self, Size};
use samples::{edges, odd_graphs, Random};

pub const SORTS: [Sort<Graph>; 11] = [
    ("small", 8_000, graphs::small),
    ("up to 96 gates", 6_000, graphs::any),
    ("few outputs, so that gates are not in use", 3_000, idle),
    ("deep, each gate on the one before it", 300, deep),
    ("up to 1,024 gates", 500, graphs::big),
    ("one fault", 4_000, edges::spoiled),
    ("one word at the edge of its rule", 3_000, edge),
    ("odd gate lists", 1_000, odd),
    ("input counts past the limit", 2_000, many),
    ("counts at the limits", 300, odd_graphs::counts_at_limits),
    ("noise", 1_500, odd_graphs::noise),
];

pub fn idle(random: &mut Random) -> Graph {
    let mut graph = graphs::any(random);
    let last = graph.last_var().0;
    let outputs = random.between(0, 2);
    let lits = (0..outputs).map(|_| Var(random.word_between(0, last)).lit(random.coin()));
    graph.outputs = lits.map(|lit| lit.0).collect();
    graph
}

pub fn deep(random: &mut Random) -> Graph {
    let size = Size {
        inputs: random.between(0, 8),
        gates: random.between(40, MOST_GATES),
        outputs: random.between(1, 8),
    };
    graphs::chain(random, size)
}

pub fn edge(random: &mut Random) -> Graph {
    let graph = graphs::any(random);
    odd_graphs::one_word_changed(random, graph)
}

pub fn odd(random: &mut Random) -> Graph {
    let graph = graphs::any(random);
    odd_graphs::odd_gate_list(random, graph)
}

pub fn many(random: &mut Random) -> Graph {
    let graph = graphs::any(random);
    odd_graphs::too_many_inputs(random, graph)
}

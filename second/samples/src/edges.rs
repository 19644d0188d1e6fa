//! Graphs at and just past the edge of every limit and rule.

use crate::graphs::{self, Size};
use crate::Random;
use model::Graph;

/// A lent graph and whether it is well formed.
pub struct Edge {
    pub name: &'static str,
    pub graph: Graph,
    pub well_formed: bool,
}

fn edge(name: &'static str, well_formed: bool, graph: Graph) -> Edge {
    Edge {
        name,
        graph,
        well_formed,
    }
}

fn of(inputs: u64, gates: &[u32], outputs: &[u32]) -> Graph {
    Graph {
        inputs,
        gates: gates.to_vec(),
        outputs: outputs.to_vec(),
    }
}

fn sized(inputs: usize, gates: usize, outputs: usize) -> Graph {
    let size = Size {
        inputs,
        gates,
        outputs,
    };
    graphs::exact(&mut Random::new(1), size)
}

fn limits() -> Vec<Edge> {
    vec![
        edge("nothing at all", true, sized(0, 0, 0)),
        edge("no inputs", true, sized(0, 9, 3)),
        edge("64 inputs", true, sized(64, 9, 3)),
        edge("65 inputs", false, sized(65, 9, 3)),
        edge("2^31 inputs", false, of(1 << 31, &[4, 2], &[6])),
        edge("2^32 + 2 inputs", false, of((1 << 32) + 2, &[4, 2], &[6])),
        edge("2^64 - 1 inputs", false, of(u64::MAX, &[4, 2], &[6])),
        edge("no outputs", true, sized(3, 9, 0)),
        edge("64 outputs", true, sized(3, 9, 64)),
        edge("65 outputs", false, sized(3, 9, 65)),
        edge("no gates", true, sized(3, 0, 3)),
        edge("1,024 gates", true, sized(3, 1024, 3)),
        edge("1,025 gates", false, sized(3, 1025, 3)),
        edge("all of all", true, sized(64, 1024, 64)),
    ]
}

fn gate_rules() -> Vec<Edge> {
    vec![
        edge("a single gate word", false, of(2, &[4], &[4])),
        edge("three gate words", false, of(2, &[4, 2, 6], &[6])),
        edge("equal fanins", true, of(2, &[4, 4], &[6])),
        edge("complement fanins", true, of(2, &[3, 2], &[6])),
        edge(
            "complement fanins, smaller first",
            false,
            of(2, &[2, 3], &[6]),
        ),
        edge("smaller fanin first", false, of(2, &[2, 4], &[6])),
        edge("constant fanins", true, of(0, &[1, 0], &[2])),
        edge("the highest fanin", true, of(2, &[5, 2], &[6])),
        edge("a gate that names itself", false, of(2, &[6, 2], &[6])),
        edge(
            "a gate that names its complement",
            false,
            of(2, &[7, 2], &[6]),
        ),
        edge(
            "a gate that names a later one",
            false,
            of(2, &[8, 2, 4, 2], &[6]),
        ),
        edge("the largest fanin word", false, of(2, &[u32::MAX, 2], &[6])),
        edge(
            "the largest fanin words",
            false,
            of(2, &[u32::MAX; 2], &[6]),
        ),
    ]
}

fn output_rules() -> Vec<Edge> {
    vec![
        edge("the highest output", true, of(2, &[4, 2], &[7])),
        edge("an output one too large", false, of(2, &[4, 2], &[7, 8])),
        edge(
            "the largest output word",
            false,
            of(2, &[4, 2], &[u32::MAX]),
        ),
        edge("a constant output", true, of(0, &[], &[1, 0])),
        edge("an output without its gate", false, of(0, &[], &[2])),
        edge("repeated outputs", true, of(2, &[4, 2], &[6, 6, 7, 6])),
    ]
}

pub fn edges() -> Vec<Edge> {
    let mut edges = limits();
    edges.extend(gate_rules());
    edges.extend(output_rules());
    edges
}

/// A random graph with one fault.
pub fn spoiled(random: &mut Random) -> Graph {
    let graph = graphs::any(random);
    with_fault(random, graph)
}

/// A well formed graph after one fault.
pub fn with_fault(random: &mut Random, mut graph: Graph) -> Graph {
    let (last, gates) = (graph.last_var(), graph.gate_count());
    match random.between(0, 6) {
        0 => graph.inputs = random.pick(&[65, 1 << 31, 1 << 32, u64::MAX]),
        1 => graph.gates.push(0),
        2 => graph.gates.resize(2050, 0),
        3 => graph.outputs.resize(65, 0),
        4 if gates > 0 => {
            let gate = random.between(0, gates - 1);
            let own = 2 * (graph.inputs as u32 + gate as u32 + 1);
            graph.gates[2 * gate] = random.pick(&[own, own + 1, u32::MAX]);
        }
        5 if gates > 0 => {
            let gate = random.between(0, gates - 1);
            graph.gates[2 * gate..2 * gate + 2].copy_from_slice(&[0, 1]);
        }
        _ => {
            graph.outputs.truncate(63);
            let past = last.lit(true).0 + 1;
            graph.outputs.push(random.pick(&[past, past + 1, u32::MAX]));
        }
    }
    graph
}

/// Lent graphs that are not well formed.
pub fn bad_graphs() -> Vec<Graph> {
    let bad = edges().into_iter().filter(|edge| !edge.well_formed);
    bad.map(|edge| edge.graph).collect()
}

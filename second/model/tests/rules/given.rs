//! Short ways to state graphs, leaf sets and proposals, and calls with room
//! enough.

use model::{apply, list, read, run, write};
use model::{Graph, Leaves, ListRefusal, Lit, Proposal, Record, Refusal, Var};

pub const E1: &str = "aag 4 2 0 1 2\n2\n4\n8\n6 4 2\n8 6 2\n";

pub fn graph(inputs: u64, gates: &[u32], outputs: &[u32]) -> Graph {
    Graph {
        inputs,
        gates: gates.to_vec(),
        outputs: outputs.to_vec(),
    }
}

pub fn e1() -> Graph {
    graph(2, &[4, 2, 6, 2], &[8])
}

/// The places as they are given, good or bad.
pub fn leaves(vars: &[u32]) -> Leaves {
    let mut places = [0; 6];
    for (place, &var) in places.iter_mut().zip(vars) {
        *place = var;
    }
    Leaves {
        count: vars.len(),
        places,
    }
}

pub fn kind_0(first: u32) -> Proposal {
    Proposal::single(Lit(first))
}

pub fn kind_1(first: u32, second: u32, turned: u32) -> Proposal {
    Proposal::pair(Lit(first), Lit(second), turned)
}

pub fn record(proposal: Proposal, gain: i64) -> Record {
    Record::new(&proposal, gain)
}

pub fn read_graph(text: &[u8]) -> Result<Graph, Refusal> {
    let (mut gates, mut outputs) = ([0; 2048], [0; 64]);
    let (inputs, gate_count, output_count) = read(text, &mut gates, &mut outputs)?;
    Ok(graph(
        inputs,
        &gates[..2 * gate_count],
        &outputs[..output_count],
    ))
}

pub fn text_of(graph: &Graph) -> String {
    let mut buffer = [0; 65_535];
    let length = write(graph, &mut buffer).expect("the graph is well formed");
    String::from_utf8_lossy(&buffer[..length]).into_owned()
}

pub fn list_of(graph: &Graph, root: u32, leaves: &Leaves) -> Result<Vec<Record>, ListRefusal> {
    let mut records = [Record::default(); 4096];
    let count = list(graph, Var(root), leaves, &mut records)?;
    Ok(records[..count].to_vec())
}

pub fn applied(
    source: &Graph,
    root: u32,
    leaves: &Leaves,
    proposal: &Proposal,
) -> Result<Graph, Refusal> {
    let (mut gates, mut outputs) = ([0; 2048], [0; 64]);
    let (gate_count, output_count) = apply(
        source,
        Var(root),
        leaves,
        proposal,
        &mut gates,
        &mut outputs,
    )?;
    Ok(graph(
        source.inputs,
        &gates[..2 * gate_count],
        &outputs[..output_count],
    ))
}

/// The finished graph and the number of replacements.
pub fn run_of(source: &Graph) -> Result<(Graph, usize), Refusal> {
    let (mut gates, mut outputs) = ([0; 2048], [0; 64]);
    let (gate_count, replacements) = run(
        source,
        &mut gates,
        &mut outputs,
        &mut [0; 2048],
        &mut [0; 64],
    )?;
    let outputs = &outputs[..source.outputs.len()];
    Ok((
        graph(source.inputs, &gates[..2 * gate_count], outputs),
        replacements,
    ))
}

//! The shrinker prints the text of the graph at the end of the run.

use crate::source;
use model::text::MOST_BYTES;
use model::{run, write, Graph, Refusal};
use std::io::{self, Write};

pub fn shrink(out: &mut dyn Write) -> io::Result<()> {
    match source::graph()?.and_then(|graph| final_text(&graph)) {
        Ok(text) => out.write_all(&text),
        Err(refusal) => source::print_refusal(refusal, out),
    }
}

fn final_text(graph: &Graph) -> Result<Vec<u8>, Refusal> {
    let (mut gates, mut outputs) = (graph.gates.clone(), graph.outputs.clone());
    let (mut work_gates, mut work_outputs) = (gates.clone(), outputs.clone());
    let (gate_count, _) = run(
        graph,
        &mut gates,
        &mut outputs,
        &mut work_gates,
        &mut work_outputs,
    )?;
    gates.truncate(2 * gate_count);
    let shrunk = Graph {
        inputs: graph.inputs,
        gates,
        outputs,
    };
    let mut text = vec![0; MOST_BYTES];
    let length = write(&shrunk, &mut text)?;
    text.truncate(length);
    Ok(text)
}

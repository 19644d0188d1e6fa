//! The text from standard input. One byte more than a text may have is enough
//! to know that it is too large.

use model::graph::{MOST_GATES, MOST_OUTPUTS};
use model::text::MOST_BYTES;
use model::{read, Graph, Refusal};
use std::io::{self, Read, Write};

/// The graph stated by standard input, or the refusal of its text.
pub fn graph() -> io::Result<Result<Graph, Refusal>> {
    let mut text = Vec::new();
    let most = MOST_BYTES as u64 + 1;
    io::stdin().lock().take(most).read_to_end(&mut text)?;
    Ok(graph_of(&text))
}

fn graph_of(text: &[u8]) -> Result<Graph, Refusal> {
    let mut gates = vec![0; 2 * MOST_GATES];
    let mut outputs = vec![0; MOST_OUTPUTS];
    let (inputs, gate_count, output_count) = read(text, &mut gates, &mut outputs)?;
    gates.truncate(2 * gate_count);
    outputs.truncate(output_count);
    Ok(Graph {
        inputs,
        gates,
        outputs,
    })
}

pub fn print_refusal(refusal: Refusal, out: &mut dyn Write) -> io::Result<()> {
    writeln!(out, "refused\t{}\t{}", refusal.number(), refusal.name())
}

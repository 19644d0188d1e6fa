//! The run drops gates not in use. It then goes through the gates from the
//! highest down; at the first one with a good replacement it applies the one
//! of greatest gain, earliest on ties, and starts again at the top. It stops
//! when a full pass finds none.

use crate::leaves::leaf_rule;
use crate::listing::Search;
use crate::reach::Reach;
use crate::{replace, Graph, Record, Refusal, Var};

/// The best replacement at a root under the leaf rule.
fn best(graph: &Graph, reach: &Reach, root: Var) -> Option<Record> {
    let leaves = leaf_rule(graph, root);
    Search::new(graph, reach, root, &leaves).best()
}

/// One pass over a graph whose gates are all in use, up to its replacement.
pub fn step(graph: &Graph) -> Option<Graph> {
    let reach = Reach::new(graph);
    let mut roots = graph.numbered_gates().rev().map(|gate| gate.0);
    let (root, record) = roots.find_map(|root| Some((root, best(graph, &reach, root)?)))?;
    Some(replace::finished(graph, root, &record.proposal()))
}

/// The end of the run and the number of replacements made.
fn shrink(graph: &Graph) -> (Graph, usize) {
    let mut graph = graph.dropped();
    let mut replacements = 0;
    while let Some(after) = step(&graph) {
        graph = after;
        replacements += 1;
    }
    (graph, replacements)
}

/// Runs into lent lists of the source graph's size; answers the gate count and
/// the number of replacements. The needed words that are left over end as 0.
pub fn run(
    graph: &Graph,
    result_gates: &mut [u32],
    result_outputs: &mut [u32],
    work_gates: &mut [u32],
    work_outputs: &mut [u32],
) -> Result<(usize, usize), Refusal> {
    graph.check()?;
    let (gate_words, output_words) = (graph.gates.len(), graph.outputs.len());
    let fits = gate_words <= result_gates.len().min(work_gates.len())
        && output_words <= result_outputs.len().min(work_outputs.len());
    Refusal::NoRoom.unless(fits)?;

    let (after, replacements) = shrink(graph);
    work_gates[..gate_words].fill(0);
    work_outputs[..output_words].fill(0);
    result_gates[..gate_words].fill(0);
    let (gates, _) = after.store(result_gates, result_outputs)?;
    Ok((gates, replacements))
}

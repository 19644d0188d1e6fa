//! Arguments as the definitions write them.

use model::{Graph, Leaves, Proposal};
use std::fmt::Display;

pub fn list<T: Display>(items: &[T]) -> String {
    let front: String = items.iter().map(|item| format!("{item} ∷ ")).collect();
    format!("({front}[])")
}

pub fn buffers(gates: usize, outputs: usize) -> String {
    format!("(buffers {gates} {outputs})")
}

pub fn graph(graph: &Graph) -> String {
    let (gates, outputs) = (list(&graph.gates), list(&graph.outputs));
    format!("(graph_of {} {gates} {outputs})", graph.inputs)
}

pub fn leaves(leaves: &Leaves) -> String {
    let places = list(
        &leaves
            .places
            .map(|place| format!("record {{ 0 = {place} }}")),
    );
    format!("(record {{ count = {}; places = {places} }})", leaves.count)
}

pub fn proposal(proposal: &Proposal) -> String {
    let Proposal {
        kind,
        first,
        second,
        turned,
    } = proposal;
    format!("(record {{ kind = {kind}; first = record {{ 0 = {first} }}; second = record {{ 0 = {second} }}; turned = {turned} }})")
}

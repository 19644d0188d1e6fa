//! What must hold of a finished graph, judged by the words of both graphs. The
//! gates in use are found and the outputs evaluated here and not by the model:
//! an error that it shares with the proved call must not judge itself.

#[cfg(test)]
mod tests;

use model::Graph;
use samples::Random;

/// Up to so many inputs every assignment is tried, else as many random ones.
const ALL_UP_TO: u64 = 12;
const BLOCKS: usize = 1 << (ALL_UP_TO - 6);

/// The first six inputs in a block of 64 assignments.
const LOW_INPUTS: [u64; 6] = [
    0xAAAA_AAAA_AAAA_AAAA,
    0xCCCC_CCCC_CCCC_CCCC,
    0xF0F0_F0F0_F0F0_F0F0,
    0xFF00_FF00_FF00_FF00,
    0xFFFF_0000_FFFF_0000,
    0xFFFF_FFFF_0000_0000,
];

/// Whether one graph may take the other's place: well formed, all gates in
/// use, fewer of them than before, and the outputs as before.
pub fn may_replace(random: &mut Random, before: &Graph, after: &Graph) -> bool {
    after.is_well_formed()
        && after.inputs == before.inputs
        && in_use(after) == after.gates.len() / 2
        && in_use(after) < in_use(before)
        && (0..BLOCKS).all(|block| {
            let inputs = block_inputs(random, before.inputs, block);
            outputs(before, &inputs) == outputs(after, &inputs)
        })
}

/// How many gates are in use: a walk from the outputs down meets them.
fn in_use(graph: &Graph) -> usize {
    let first_gate = graph.inputs as usize + 1;
    let mut met = vec![false; graph.gates.len() / 2];
    let mut ahead = graph.outputs.clone();
    while let Some(literal) = ahead.pop() {
        let Some(gate) = variable(literal).checked_sub(first_gate) else {
            continue;
        };
        if !met[gate] {
            met[gate] = true;
            ahead.extend([graph.gates[2 * gate], graph.gates[2 * gate + 1]]);
        }
    }
    met.into_iter().filter(|&met| met).count()
}

/// The values of the inputs in a block, 64 assignments at once. The blocks
/// together have every assignment where there are few inputs.
fn block_inputs(random: &mut Random, inputs: u64, block: usize) -> Vec<u64> {
    let by_number = |input: u64| match LOW_INPUTS.get(input as usize) {
        Some(&pattern) => pattern,
        None => ((block as u64 >> (input - 6)) & 1).wrapping_neg(),
    };
    match inputs <= ALL_UP_TO {
        true => (0..inputs).map(by_number).collect(),
        false => (0..inputs).map(|_| random.word()).collect(),
    }
}

/// The outputs' values under 64 assignments at once.
fn outputs(graph: &Graph, inputs: &[u64]) -> Vec<u64> {
    let mut known = vec![0];
    known.extend_from_slice(inputs);
    for fanins in graph.gates.chunks_exact(2) {
        known.push(value(&known, fanins[0]) & value(&known, fanins[1]));
    }
    let outputs = graph.outputs.iter();
    outputs.map(|&output| value(&known, output)).collect()
}

fn value(known: &[u64], literal: u32) -> u64 {
    let value = known[variable(literal)];
    match literal % 2 {
        0 => value,
        _ => !value,
    }
}

fn variable(literal: u32) -> usize {
    literal as usize / 2
}

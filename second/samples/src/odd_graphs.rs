//! Graphs at the edge of one rule, good or wrong: a word beside its limit, an
//! odd gate list, counts at the limits, input counts past theirs, noise.

use crate::graphs::{self, Size};
use crate::Random;
use model::Graph;

/// A word of a well formed graph beside what limits it: an output beside the
/// largest literal, a gate's beside its own literal or its other word.
pub fn one_word_changed(random: &mut Random, mut graph: Graph) -> Graph {
    let (gates, outputs) = (graph.gates.len(), graph.outputs.len());
    if outputs > 0 && (gates == 0 || random.coin()) {
        let largest = graph.last_var().lit(true).0;
        graph.outputs[random.between(0, outputs - 1)] = beside(random, largest);
    } else if gates > 0 {
        let place = random.between(0, gates - 1);
        let own = 2 * (graph.inputs as u32 + place as u32 / 2 + 1);
        let limit = random.pick(&[own, graph.gates[place ^ 1]]);
        graph.gates[place] = beside(random, limit);
    }
    graph
}

/// A limit or a word next to it, at times one far off.
fn beside(random: &mut Random, limit: u32) -> u32 {
    match random.once_in(8) {
        true => random.pick(&[0, 1 << 31, u32::MAX - 1, u32::MAX]),
        false => (limit + random.word_between(0, 2)).saturating_sub(1),
    }
}

/// A word too many or too few in the gate list.
pub fn odd_gate_list(random: &mut Random, mut graph: Graph) -> Graph {
    match graph.gates.is_empty() || random.coin() {
        true => graph.gates.push(random.word_between(0, 9)),
        false => graph.gates.truncate(graph.gates.len() - 1),
    }
    graph
}

/// Counts at the limits and just past them.
pub fn counts_at_limits(random: &mut Random) -> Graph {
    let size = Size {
        inputs: random.pick(&[0, 1, 63, 64, 65]),
        gates: random.pick(&[0, 1, 1023, 1024, 1025]),
        outputs: random.pick(&[0, 1, 63, 64, 65]),
    };
    graphs::exact(random, size)
}

/// An input count past the limit, which is the only fault. Some counts are the
/// right one as far as their low bits go.
pub fn too_many_inputs(random: &mut Random, mut graph: Graph) -> Graph {
    let past = [1 << 31, 1 << 32, 1 << 63, u64::MAX];
    let low = [1 << 31, 1 << 32, 1 << 63].map(|high| high + graph.inputs);
    graph.inputs = match random.between(0, 3) {
        0 => 65,
        1 => random.pick(&low),
        _ => random.pick(&past),
    };
    graph
}

/// Few words, each of which may be anything; small ones as a rule.
pub fn noise(random: &mut Random) -> Graph {
    let word = |random: &mut Random| match random.once_in(6) {
        true => random.word() as u32,
        false => random.word_between(0, 7),
    };
    let mut words = |most| -> Vec<u32> {
        let count = random.between(0, most);
        (0..count).map(|_| word(random)).collect()
    };
    let (gates, outputs) = (words(6), words(3));
    let inputs = match random.once_in(6) {
        true => random.word(),
        false => random.between(0, 3) as u64,
    };
    Graph {
        inputs,
        gates,
        outputs,
    }
}

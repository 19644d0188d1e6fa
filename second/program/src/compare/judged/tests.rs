//! A right result is taken, and each wrong one is not.

use super::may_replace;
use model::Graph;
use samples::Random;

fn graph(inputs: u64, gates: &[u32], outputs: &[u32]) -> Graph {
    Graph {
        inputs,
        gates: gates.to_vec(),
        outputs: outputs.to_vec(),
    }
}

fn is_taken(before: &Graph, after: &Graph) -> bool {
    may_replace(&mut Random::new(1), before, after)
}

/// The AND of two inputs and again of one of them, with a plain output and a
/// complemented one.
fn twice() -> Graph {
    graph(2, &[4, 2, 6, 2], &[8, 9])
}

/// The AND of all inputs, gate by gate, and again of the first one.
fn long(inputs: u64) -> Graph {
    let mut all = shorter(inputs);
    all.gates.extend([all.outputs[0], 2]);
    all.outputs[0] += 2;
    all
}

/// What is left of it without its last gate.
fn shorter(inputs: u64) -> Graph {
    let first_gate = inputs as u32 + 1;
    let mut gates = vec![4, 2];
    for input in 3..first_gate {
        gates.extend([2 * (first_gate + input - 3), 2 * input]);
    }
    let output = 2 * (first_gate + inputs as u32 - 2);
    graph(inputs, &gates, &[output])
}

#[test]
fn a_right_result_is_taken() {
    assert!(is_taken(&twice(), &graph(2, &[4, 2], &[6, 7])));
    for inputs in [6, 7, 12, 13, 64] {
        assert!(is_taken(&long(inputs), &shorter(inputs)));
    }
}

#[test]
fn a_gate_that_was_not_in_use_counts_for_nothing() {
    let before = graph(2, &[4, 2, 4, 3], &[6]);
    assert!(!is_taken(&before, &graph(2, &[4, 2], &[6])));
}

#[test]
fn a_flipped_output_is_not_taken() {
    assert!(!is_taken(&twice(), &graph(2, &[4, 2], &[7, 7])));
    assert!(!is_taken(&twice(), &graph(2, &[4, 2], &[6, 6])));
    for inputs in [12, 13, 64] {
        let mut flipped = shorter(inputs);
        flipped.outputs[0] ^= 1;
        assert!(!is_taken(&long(inputs), &flipped));
    }
}

#[test]
fn outputs_keep_their_order_and_number() {
    for outputs in [&[7, 6][..], &[6], &[6, 7, 7], &[]] {
        assert!(!is_taken(&twice(), &graph(2, &[4, 2], outputs)));
    }
}

#[test]
fn a_wrong_constant_is_not_taken() {
    let never = graph(1, &[3, 2], &[4]);
    assert!(is_taken(&never, &graph(1, &[], &[0])));
    assert!(!is_taken(&never, &graph(1, &[], &[1])));
    let never = graph(13, &[3, 2], &[28]);
    assert!(is_taken(&never, &graph(13, &[], &[0])));
    assert!(!is_taken(&never, &graph(13, &[], &[1])));
}

/// It differs from the constant where all twelve inputs hold, and only there.
#[test]
fn a_result_wrong_under_one_assignment_of_twelve_inputs_is_not_taken() {
    assert!(!is_taken(&long(12), &graph(12, &[], &[0])));
}

#[test]
fn an_idle_gate_is_not_taken() {
    let before = graph(2, &[4, 2, 6, 2, 8, 4], &[10]);
    assert!(is_taken(&before, &graph(2, &[4, 2], &[6])));
    assert!(!is_taken(&before, &graph(2, &[4, 2, 6, 4], &[6])));
    assert!(!is_taken(&before, &graph(2, &[4, 3, 4, 2], &[8])));
}

#[test]
fn fanins_smaller_first_are_not_taken() {
    assert!(!is_taken(&twice(), &graph(2, &[2, 4], &[6, 7])));
}

#[test]
fn as_many_gates_in_use_as_before_are_not_taken() {
    assert!(!is_taken(&twice(), &twice()));
    let one = graph(2, &[4, 2], &[6]);
    assert!(!is_taken(&one, &one));
    assert!(!is_taken(&one, &graph(2, &[4, 2, 6, 2], &[8])));
}

#[test]
fn another_count_of_inputs_is_not_taken() {
    let without = graph(3, &[], &[0, 1]);
    assert!(is_taken(&graph(3, &[3, 2], &[8, 9]), &without));
    assert!(!is_taken(&graph(2, &[3, 2], &[6, 7]), &without));
}

//! The limits and rules that are also to be run.

use crate::given::*;
use model::{pick_leaves, table, Leaves, Refusal, Var};

/// A chain of so many gates, each over the one before and input 1.
fn chain(gates: u32) -> String {
    let mut text = format!("aag {} 1 0 1 {gates}\n2\n{}\n", gates + 1, 2 * gates + 2);
    for k in 1..=gates {
        text += &format!("{} {} 3\n", 2 * k + 2, 2 * k);
    }
    text
}

fn only_inputs(count: u32) -> String {
    let lines: String = (1..=count).map(|k| format!("{}\n", 2 * k)).collect();
    format!("aag {count} {count} 0 0 0\n{lines}")
}

#[test]
fn a_text_may_have_64_inputs_but_not_65() {
    let answer = read_graph(only_inputs(64).as_bytes());
    assert_eq!(answer, Ok(graph(64, &[], &[])));
    let answer = read_graph(only_inputs(65).as_bytes());
    assert_eq!(answer, Err(Refusal::TooLarge));
}

#[test]
fn a_text_may_have_1024_gates_but_not_1025() {
    let answer = read_graph(chain(1024).as_bytes()).unwrap();
    assert_eq!(answer.gate_count(), 1024);
    let answer = read_graph(chain(1025).as_bytes());
    assert_eq!(answer, Err(Refusal::TooLarge));
}

#[test]
fn a_lent_graph_may_have_64_inputs_but_not_65() {
    assert!(run_of(&graph(64, &[], &[])).is_ok());
    assert_eq!(run_of(&graph(65, &[], &[])), Err(Refusal::BadGraph));
}

#[test]
fn a_lent_graph_may_have_1024_gates_but_not_1025() {
    assert!(run_of(&graph(0, &[1; 2048], &[2])).is_ok());
    let answer = run_of(&graph(0, &[1; 2050], &[2]));
    assert_eq!(answer, Err(Refusal::BadGraph));
}

/// Seven inputs under a chain of six gates.
fn seven_inputs() -> model::Graph {
    graph(7, &[4, 2, 16, 6, 18, 8, 20, 10, 22, 12, 24, 14], &[26])
}

#[test]
fn a_window_may_have_six_leaves() {
    let answer = table(&seven_inputs(), Var(12), &leaves(&[1, 2, 3, 4, 5, 6]));
    assert_eq!(answer, Ok(1 << 63));
}

#[test]
fn a_window_may_not_have_seven_leaves() {
    let seven = Leaves {
        count: 7,
        places: [1, 2, 3, 4, 5, 6],
    };
    let answer = table(&seven_inputs(), Var(13), &seven);
    assert_eq!(answer, Err(Refusal::BadLeaves));
}

#[test]
fn the_leaf_rule_stops_before_seven_leaves() {
    let answer = pick_leaves(&seven_inputs(), Var(13));
    assert_eq!(answer, Ok(leaves(&[3, 4, 5, 6, 7, 8])));
}

#[test]
fn right_sides_are_held_larger_first() {
    let answer = read_graph(b"aag 2 1 0 1 1\n2\n4\n4 2 3\n");
    assert_eq!(answer, Ok(graph(1, &[3, 2], &[4])));
}

#[test]
fn a_gate_that_names_itself_is_a_bad_literal() {
    let answer = read_graph(b"aag 2 1 0 1 1\n2\n4\n4 4 2\n");
    assert_eq!(answer, Err(Refusal::BadLiteral));
}

#[test]
fn an_input_is_a_bad_root() {
    assert_eq!(pick_leaves(&e1(), Var(2)), Err(Refusal::BadRoot));
}

#[test]
fn a_gate_not_in_use_is_a_bad_root() {
    let source = graph(2, &[4, 2, 4, 3], &[6]);
    assert_eq!(pick_leaves(&source, Var(4)), Err(Refusal::BadRoot));
}

//! Evaluation, marks and dropping on random graphs.

use crate::naive;
use model::{evaluate, Graph, Lit};
use samples::{assignments, graphs, windows, Random};

/// A literal's value, followed down to the inputs.
fn value(graph: &Graph, lit: Lit, values: &[u32]) -> bool {
    let var = lit.var();
    let plain = match graph.fanins(var) {
        Some([high, low]) => value(graph, high, values) && value(graph, low, values),
        None => var.0 > 0 && values[var.index() - 1] == 1,
    };
    plain != lit.is_complemented()
}

#[test]
fn outputs_have_the_values_of_their_literals() {
    let mut random = Random::new(21);
    for _ in 0..1000 {
        let graph = graphs::small(&mut random);
        for values in assignments::many(&mut random, graph.inputs, 6, 0) {
            let mut results = vec![9; graph.outputs.len()];
            evaluate(&graph, &values, &mut results).unwrap();
            for (&result, &output) in results.iter().zip(&graph.outputs) {
                assert_eq!(result, u32::from(value(&graph, Lit(output), &values)));
            }
        }
    }
}

#[test]
fn marked_are_the_variables_that_outputs_reach() {
    let mut random = Random::new(22);
    for _ in 0..1000 {
        let graph = graphs::any(&mut random);
        let reached = naive::reached(&graph);
        for (index, mark) in graph.marks().into_iter().enumerate() {
            assert_eq!(mark, reached.contains(&model::Var(index as u32)));
        }
        assert_eq!(graph.gates_in_use(), naive::gates_in_use(&graph));
    }
}

#[test]
fn dropping_keeps_the_gates_in_use_and_the_values() {
    let mut random = Random::new(23);
    for _ in 0..1000 {
        let graph = graphs::any(&mut random);
        let dropped = graph.dropped();
        assert!(dropped.is_well_formed());
        assert_eq!(dropped.gate_count(), graph.gates_in_use());
        assert_eq!(dropped.gates_in_use(), graph.gates_in_use());
        let values = assignments::good(&mut random, graph.inputs);
        let (mut before, mut after) = (vec![0; graph.outputs.len()], vec![0; graph.outputs.len()]);
        evaluate(&graph, &values, &mut before).unwrap();
        evaluate(&dropped, &values, &mut after).unwrap();
        assert_eq!(before, after);
    }
}

#[test]
fn a_root_is_good_just_where_it_is_a_gate_in_use() {
    let mut random = Random::new(24);
    for _ in 0..1000 {
        let graph = graphs::any(&mut random);
        if let Some(root) = windows::good_root(&mut random, &graph) {
            assert!(graph.check_root(root).is_ok());
        }
        let bad = windows::bad_root(&mut random, &graph);
        assert!(graph.check_root(bad).is_err());
    }
}

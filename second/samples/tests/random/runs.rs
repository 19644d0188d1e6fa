//! Runs on random graphs: equivalent, ordered, falling, and at an end.

use crate::lists::listed;
use crate::naive;
use model::run::step;
use model::{apply, evaluate, pick_leaves, run, Graph};
use samples::{assignments, graphs, Random};

/// The finished graph and the number of replacements, by the lent call.
fn finished(source: &Graph) -> (Graph, usize) {
    let (mut gates, mut outputs) = (source.gates.clone(), source.outputs.clone());
    let (mut work_gates, mut work_outputs) = (gates.clone(), outputs.clone());
    let answer = run(
        source,
        &mut gates,
        &mut outputs,
        &mut work_gates,
        &mut work_outputs,
    );
    let (gate_count, replacements) = answer.expect("room is enough");
    let unused = gates.split_off(2 * gate_count);
    let left = unused.iter().chain(&work_gates).chain(&work_outputs);
    assert!(left.into_iter().all(|&word| word == 0));
    let inputs = source.inputs;
    let graph = Graph {
        inputs,
        gates,
        outputs,
    };
    (graph, replacements)
}

fn results(graph: &Graph, values: &[u32]) -> Vec<u32> {
    let mut results = vec![0; graph.outputs.len()];
    evaluate(graph, values, &mut results).expect("one value an input");
    results
}

/// Outputs agree under all assignments of few inputs, else under 64.
fn assert_equivalent(random: &mut Random, before: &Graph, after: &Graph) {
    assert_eq!(before.inputs, after.inputs);
    assert_eq!(before.outputs.len(), after.outputs.len());
    for values in assignments::many(random, before.inputs, 8, 64) {
        assert_eq!(results(before, &values), results(after, &values));
    }
}

/// Each replacement leaves fewer gates, all in use; answers how many it took.
fn assert_falling(source: &Graph) -> (Graph, usize) {
    let mut graph = source.dropped();
    let mut replacements = 0;
    while let Some(after) = step(&graph) {
        assert!(after.is_well_formed());
        assert!(naive::gates_in_use(&after) < naive::gates_in_use(&graph));
        assert_eq!(naive::gates_in_use(&after), after.gate_count());
        graph = after;
        replacements += 1;
    }
    (graph, replacements)
}

/// No proposal at any gate can be applied.
fn assert_at_end(graph: &Graph) {
    let (mut gates, mut outputs) = ([0; 2048], [0; 64]);
    for (root, _, _) in graph.numbered_gates() {
        let leaves = pick_leaves(graph, root).expect("every gate is in use");
        for proposal in naive::proposals(root) {
            let applied = apply(graph, root, &leaves, &proposal, &mut gates, &mut outputs);
            assert!(applied.is_err(), "{proposal:?} at {root:?}");
        }
    }
}

/// The finished graph, after all but its end is tested.
fn assert_sound(random: &mut Random, source: &Graph) -> Graph {
    let (after, replacements) = finished(source);
    assert!(after.is_well_formed());
    assert_equivalent(random, source, &after);
    assert_eq!(assert_falling(source), (after.clone(), replacements));
    after
}

#[test]
fn ten_thousand_random_graphs_run_to_a_sound_end() {
    let mut random = Random::new(71);
    for k in 0..10_000 {
        let source = match k % 3 {
            0 => graphs::small(&mut random),
            1 => graphs::redundant(&mut random, graphs::SMALL),
            _ => graphs::redundant(&mut random, graphs::MODEST),
        };
        let after = assert_sound(&mut random, &source);
        assert_at_end(&after);
    }
}

/// One replacement by the lent calls: of the first list that is not empty,
/// from the highest gate down, the earliest record of greatest gain.
fn step_by_lists(graph: &Graph) -> Option<Graph> {
    for (root, _, _) in graph.numbered_gates().rev() {
        let leaves = pick_leaves(graph, root).expect("every gate is in use");
        let records = listed(graph, root, &leaves);
        let Some(greatest) = records.iter().map(|record| record.gain).max() else {
            continue;
        };
        let chosen = records.iter().find(|record| record.gain == greatest)?;
        let (mut gates, mut outputs) = (graph.gates.clone(), graph.outputs.clone());
        let proposal = chosen.proposal();
        let applied = apply(graph, root, &leaves, &proposal, &mut gates, &mut outputs);
        gates.truncate(2 * applied.expect("what is listed can be applied").0);
        let inputs = graph.inputs;
        return Some(Graph {
            inputs,
            gates,
            outputs,
        });
    }
    None
}

#[test]
fn each_step_is_the_one_that_the_lists_decide() {
    let mut random = Random::new(76);
    for _ in 0..500 {
        let mut graph = graphs::redundant(&mut random, graphs::MID).dropped();
        while let Some(after) = step(&graph) {
            assert_eq!(step_by_lists(&graph), Some(after.clone()));
            graph = after;
        }
        assert_eq!(step_by_lists(&graph), None);
    }
}

#[test]
fn mid_graphs_run_to_a_sound_end() {
    let mut random = Random::new(72);
    for _ in 0..300 {
        let source = graphs::redundant(&mut random, graphs::MID);
        assert_sound(&mut random, &source);
    }
}

#[test]
fn some_mid_graphs_end_where_nothing_can_be_applied() {
    let mut random = Random::new(73);
    for _ in 0..30 {
        let source = graphs::redundant(&mut random, graphs::MID);
        assert_at_end(&finished(&source).0);
    }
}

#[test]
fn big_graphs_run_to_a_sound_end() {
    let mut random = Random::new(74);
    for k in 0..6 {
        let source = match k % 2 {
            0 => graphs::big(&mut random),
            _ => graphs::redundant(&mut random, graphs::BIG),
        };
        assert_sound(&mut random, &source);
    }
}

#[test]
fn a_finished_graph_stays_as_it_is() {
    let mut random = Random::new(75);
    for _ in 0..500 {
        let (after, _) = finished(&graphs::any(&mut random));
        assert_eq!(finished(&after), (after.clone(), 0));
    }
}

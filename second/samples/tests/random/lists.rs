//! Lists against every proposal judged by applying it.

use crate::{naive, roots};
use model::replace::gain;
use model::{apply, list, pick_leaves, Graph, Leaves, ListRefusal, Record, Var};
use samples::{graphs, windows, Random};

/// The whole list, asked for its length first.
pub fn listed(graph: &Graph, root: Var, leaves: &Leaves) -> Vec<Record> {
    let needed = match list(graph, root, leaves, &mut []) {
        Ok(count) => count,
        Err(ListRefusal::NoRoom { needed }) => needed,
        Err(ListRefusal::Refused(refusal)) => panic!("{refusal:?}"),
    };
    let mut records = vec![Record::default(); needed];
    assert_eq!(list(graph, root, leaves, &mut records), Ok(needed));
    records
}

/// The list by definition: what applying takes, with the gain that it shows.
fn by_applying(graph: &Graph, root: Var, leaves: &Leaves) -> Vec<Record> {
    let (mut gates, mut outputs) = ([0; 2048], [0; 64]);
    let before = naive::gates_in_use(graph) as i64;
    let mut judge = |proposal| {
        let applied = apply(graph, root, leaves, &proposal, &mut gates, &mut outputs);
        let (gate_count, _) = applied.ok()?;
        Some(Record::new(&proposal, before - gate_count as i64))
    };
    naive::proposals(root).filter_map(&mut judge).collect()
}

/// A record's place in the order of the list.
fn place(record: &Record) -> [u32; 4] {
    [record.kind, record.first, record.second, record.turned]
}

#[test]
fn the_list_under_the_rule_is_what_applying_takes() {
    let mut random = Random::new(61);
    for _ in 0..400 {
        let graph = graphs::redundant(&mut random, graphs::SMALL);
        for (root, _, _) in graph.numbered_gates() {
            if let Ok(leaves) = pick_leaves(&graph, root) {
                let expected = by_applying(&graph, root, &leaves);
                assert_eq!(listed(&graph, root, &leaves), expected);
            }
        }
    }
}

#[test]
fn the_list_of_any_cut_is_what_applying_takes() {
    roots::each(62, 1000, graphs::small, |random, graph, root| {
        let leaves = windows::cut(random, graph, root);
        let expected = by_applying(graph, root, &leaves);
        assert_eq!(listed(graph, root, &leaves), expected);
    });
}

#[test]
fn lists_ascend_strictly() {
    let draw = |random: &mut Random| graphs::redundant(random, graphs::MID);
    let mut longest = 0;
    roots::each(63, 300, draw, |_, graph, root| {
        let leaves = pick_leaves(graph, root).unwrap();
        let records = listed(graph, root, &leaves);
        let ascends = |two: &[Record]| place(&two[0]) < place(&two[1]);
        assert!(records.windows(2).all(ascends));
        assert!(records.iter().all(|record| record.gain >= 1));
        longest = longest.max(records.len());
    });
    assert!(longest > 20, "{longest}");
}

#[test]
fn gains_in_big_graphs_are_taken_over_the_two_graphs() {
    let draw = |random: &mut Random| graphs::redundant(random, graphs::BIG);
    let mut compared = 0;
    roots::each(64, 100, draw, |_, graph, root| {
        let leaves = pick_leaves(graph, root).unwrap();
        for record in listed(graph, root, &leaves).iter().take(100) {
            assert_eq!(record.gain, gain(graph, root, &record.proposal()));
            compared += 1;
        }
    });
    assert!(compared > 100, "{compared}");
}

//! The leaf rule against its restatement over plain sets.

use crate::{naive, roots};
use model::{pick_leaves, Graph, Var};
use samples::graphs::{Size, BIG};
use samples::{graphs, windows, Random};

fn assert_restated(_: &mut Random, graph: &Graph, root: Var) {
    let (expected, _) = naive::leaf_rule(graph, root);
    assert_eq!(pick_leaves(graph, root), Ok(expected));
}

#[test]
fn the_rule_picks_what_its_restatement_picks() {
    roots::each(31, 3000, graphs::any, assert_restated);
}

#[test]
fn the_rule_picks_the_same_in_big_graphs() {
    roots::each(32, 100, graphs::big, assert_restated);
}

#[test]
fn some_roots_need_more_expansions_than_there_are_gates_below() {
    let mut random = Random::new(33);
    let needs_more = |_: usize| {
        let graph = graphs::covered(&mut random, 60);
        let root = windows::good_root(&mut random, &graph);
        root.is_some_and(|root| {
            let below = u64::from(root.0) - graph.inputs - 1;
            naive::leaf_rule(&graph, root).1 as u64 > below
        })
    };
    assert!((0..2000).any(needs_more));
}

#[test]
fn in_chains_the_rule_goes_down_to_the_inputs() {
    let mut most = 0;
    let chain = |random: &mut Random| {
        let inputs = random.between(0, 8);
        graphs::chain(random, Size { inputs, ..BIG })
    };
    roots::each(34, 300, chain, |_, graph, root| {
        let (leaves, expansions) = naive::leaf_rule(graph, root);
        assert!(leaves.vars().all(|leaf| graph.fanins(leaf).is_none()));
        most = most.max(expansions);
    });
    assert!(most > 1024, "{most}");
}

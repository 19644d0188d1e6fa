//! The samples are what they say they are.

use model::Graph;
use samples::edges::{edges, spoiled};
use samples::{graphs, odd_graphs, Random};

#[test]
fn equal_seeds_give_equal_graphs() {
    let draw = |seed| graphs::big(&mut Random::new(seed));
    assert_eq!(draw(7), draw(7));
    assert_ne!(draw(7), draw(8));
}

#[test]
fn random_graphs_are_well_formed() {
    let mut random = Random::new(1);
    for _ in 0..2000 {
        assert!(graphs::any(&mut random).is_well_formed());
    }
    for _ in 0..100 {
        assert!(graphs::big(&mut random).is_well_formed());
        assert!(graphs::redundant(&mut random, graphs::BIG).is_well_formed());
        assert!(graphs::chain(&mut random, graphs::BIG).is_well_formed());
    }
}

#[test]
fn edges_are_well_formed_where_they_say_so() {
    for edge in edges() {
        let name = edge.name;
        assert_eq!(edge.graph.is_well_formed(), edge.well_formed, "{name}");
    }
}

#[test]
fn spoiled_graphs_are_not_well_formed() {
    let mut random = Random::new(3);
    for _ in 0..2000 {
        assert!(!spoiled(&mut random).is_well_formed());
    }
}

#[test]
fn graphs_at_the_edge_of_a_rule_are_good_and_wrong() {
    let mut random = Random::new(4);
    let word_changed = |random: &mut Random| {
        let graph = graphs::any(random);
        odd_graphs::one_word_changed(random, graph)
    };
    for draw in [
        word_changed,
        odd_graphs::counts_at_limits,
        odd_graphs::noise,
    ] {
        let drawn = (0..2000).map(|_| draw(&mut random));
        let good = drawn.filter(|graph| graph.is_well_formed()).count();
        assert!((100..1900).contains(&good), "{good}");
    }
}

#[test]
fn odd_gate_lists_and_too_many_inputs_are_not_well_formed() {
    let mut random = Random::new(5);
    for _ in 0..2000 {
        let graph = graphs::any(&mut random);
        assert!(!odd_graphs::odd_gate_list(&mut random, graph.clone()).is_well_formed());
        let many = odd_graphs::too_many_inputs(&mut random, graph.clone());
        assert!(!many.is_well_formed());
        let inputs = graph.inputs;
        assert!(Graph { inputs, ..many }.is_well_formed());
    }
}

#[test]
fn in_a_chain_each_gate_draws_on_the_variable_before_it() {
    let graph = graphs::chain(&mut Random::new(6), graphs::MID);
    for (gate, high, low) in graph.numbered_gates() {
        assert!([high, low].iter().any(|lit| lit.var().0 + 1 == gate.0));
    }
}

#[test]
fn most_redundant_graphs_can_be_shrunk() {
    let mut random = Random::new(2);
    let shrinkable = |_: &usize| {
        let graph = graphs::redundant(&mut random, graphs::MID).dropped();
        model::run::step(&graph).is_some()
    };
    let count = (0..200).filter(shrinkable).count();
    assert!(count > 150, "{count}");
}

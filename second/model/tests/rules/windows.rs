//! Leaf sets, coverage and the leaf rule, by example.

use crate::given::*;
use model::window::covered;
use model::{pick_leaves, table, Leaves, Var};

#[test]
fn a_leaf_set_keeps_its_order_and_takes_no_leaf_twice() {
    let vars = [9, 4, 0, 7, 4, 9].map(Var);
    assert_eq!(Leaves::of(vars), Some(leaves(&[4, 7, 9])));
}

#[test]
fn a_leaf_set_takes_no_seventh_leaf() {
    let six = Leaves::of([3, 1, 2, 6, 5, 4].map(Var)).unwrap();
    assert_eq!(six, leaves(&[1, 2, 3, 4, 5, 6]));
    assert_eq!(six.with(Var(7)), None);
    assert_eq!(six.with(Var(3)), Some(six));
}

#[test]
fn an_expansion_exchanges_a_gate_for_its_fanins() {
    let source = e1();
    let start = leaves(&[1, 3]);
    assert_eq!(start.expanded(&source, Var(3)), Some(leaves(&[1, 2])));
    assert_eq!(start.expanded(&source, Var(1)), None);
}

#[test]
fn an_expansion_that_gives_seven_does_not_fit() {
    let source = graph(7, &[4, 2, 16, 6], &[18]);
    let full = leaves(&[3, 4, 5, 6, 7, 8]);
    assert_eq!(full.expanded(&source, Var(8)), None);
}

#[test]
fn coverage_is_not_limited_to_the_cone_of_the_root() {
    let source = graph(3, &[4, 2, 5, 3, 6, 4], &[12, 8]);
    let answer = covered(&source, Var(5), &leaves(&[1, 2]));
    assert_eq!(answer, vec![true, true, true, false, true, true]);
}

#[test]
fn a_gate_leaf_keeps_its_pattern_though_its_fanins_are_covered() {
    let answer = table(&e1(), Var(4), &leaves(&[1, 2, 3]));
    assert_eq!(answer, Ok(0xA0A0_A0A0_A0A0_A0A0));
}

#[test]
fn a_root_may_be_cut_by_no_leaves() {
    let source = graph(0, &[1, 1, 3, 1], &[4]);
    assert_eq!(pick_leaves(&source, Var(2)), Ok(leaves(&[])));
    assert_eq!(table(&source, Var(2), &leaves(&[])), Ok(0));
    assert_eq!(table(&source, Var(1), &leaves(&[])), Ok(u64::MAX));
}

#[test]
fn the_rule_goes_on_though_a_leaf_comes_back() {
    // Gate 2 is constant and gives way at once, but each gate of the chain
    // brings it back: two expansions a gate.
    let mut source = graph(1, &[1, 0], &[]);
    for k in 3..=1000 {
        source
            .gates
            .extend([2 * (k - 1), if k == 3 { 2 } else { 4 }]);
    }
    source.outputs.push(2000);
    assert_eq!(pick_leaves(&source, Var(1000)), Ok(leaves(&[1])));
}

#[test]
fn the_rule_can_stop_at_six_leaves_over_four_inputs() {
    // Six gates over pairs of four inputs, then the AND of all: of the six
    // pairs no expansion is left that fits.
    let mut source = graph(4, &[4, 2, 6, 2, 8, 2, 6, 4, 8, 4, 8, 6], &[30]);
    source
        .gates
        .extend([12, 10, 16, 14, 20, 18, 24, 22, 28, 26]);
    let answer = pick_leaves(&source, Var(15));
    assert_eq!(answer, Ok(leaves(&[5, 6, 7, 8, 9, 10])));
}

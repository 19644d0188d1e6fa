//! P1 to P12.

use crate::given::*;
use model::{pick_leaves, table, Refusal, Var};

#[test]
fn e1_states_its_graph() {
    assert_eq!(read_graph(E1.as_bytes()), Ok(e1()));
    assert_eq!(text_of(&e1()), E1);
}

#[test]
fn p1_the_table_of_variable_4_is_all_8() {
    let table = table(&e1(), Var(4), &leaves(&[1, 2]));
    assert_eq!(table, Ok(0x8888_8888_8888_8888));
}

#[test]
fn p2_the_rule_picks_1_and_2_for_root_4() {
    assert_eq!(pick_leaves(&e1(), Var(4)), Ok(leaves(&[1, 2])));
}

#[test]
fn p3_the_list_of_root_4_has_two_records() {
    let expected = vec![record(kind_0(6), 1), record(kind_1(4, 2, 0), 1)];
    assert_eq!(list_of(&e1(), 4, &leaves(&[1, 2])), Ok(expected));
}

#[test]
fn p4_over_leaves_1_and_3_the_list_is_empty() {
    assert_eq!(list_of(&e1(), 4, &leaves(&[1, 3])), Ok(vec![]));
}

#[test]
fn p5_over_leaves_1_and_3_variable_2_is_not_covered() {
    let answer = applied(&e1(), 4, &leaves(&[1, 3]), &kind_1(4, 2, 0));
    assert_eq!(answer, Err(Refusal::BadCandidate));
}

#[test]
fn p6_literal_2_is_not_equal() {
    let answer = applied(&e1(), 4, &leaves(&[1, 2]), &kind_0(2));
    assert_eq!(answer, Err(Refusal::NotEqual));
}

#[test]
fn p7_the_gate_over_variable_3_gains_nothing() {
    let answer = applied(&e1(), 4, &leaves(&[1, 2]), &kind_1(6, 2, 0));
    assert_eq!(answer, Err(Refusal::NoGain));
}

#[test]
fn p8_leaf_1_does_not_cut_root_3() {
    let (source, leaf) = (e1(), leaves(&[1]));
    assert_eq!(table(&source, Var(3), &leaf), Err(Refusal::NotACut));
    let listed = list_of(&source, 3, &leaf).unwrap_err();
    assert_eq!(listed.refusal(), Refusal::NotACut);
    let answer = applied(&source, 3, &leaf, &kind_0(2));
    assert_eq!(answer, Err(Refusal::NotACut));
}

#[test]
fn p9_a_literal_and_its_complement_give_0() {
    let (after, _) = run_of(&graph(1, &[3, 2], &[4])).unwrap();
    assert_eq!(after, graph(1, &[], &[0]));
}

#[test]
fn p10_a_complemented_output_gives_1() {
    let (after, _) = run_of(&graph(1, &[3, 2], &[5])).unwrap();
    assert_eq!(after, graph(1, &[], &[1]));
}

#[test]
fn p11_two_gates_give_way_to_literal_2() {
    let source = graph(2, &[5, 3, 7, 2], &[8]);
    let picked = pick_leaves(&source, Var(4)).unwrap();
    let expected = vec![record(kind_0(2), 2)];
    assert_eq!(list_of(&source, 4, &picked), Ok(expected));
    assert_eq!(run_of(&source), Ok((graph(2, &[], &[2]), 1)));
}

#[test]
fn p12_a_run_changes_nothing_in_the_empty_graph() {
    let empty = read_graph(b"aag 0 0 0 0 0\n").unwrap();
    assert_eq!(empty, graph(0, &[], &[]));
    assert_eq!(run_of(&empty), Ok((empty, 0)));
}

#[test]
fn the_run_on_e1_makes_one_replacement() {
    let expected = graph(2, &[4, 2], &[6]);
    assert_eq!(run_of(&e1()), Ok((expected, 1)));
}

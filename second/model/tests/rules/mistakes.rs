//! The mistakes that the rules expect.

use crate::given::*;
use model::run::step;
use model::Refusal;

#[test]
fn tables_are_compared_on_all_64_patterns() {
    // The AND of six inputs differs from 0 in the last pattern alone.
    let source = graph(6, &[4, 2, 14, 6, 16, 8, 18, 10, 20, 12], &[22]);
    let answer = applied(&source, 11, &leaves(&[1, 2, 3, 4, 5, 6]), &kind_0(0));
    assert_eq!(answer, Err(Refusal::NotEqual));
}

#[test]
fn a_complemented_reference_is_complemented_again() {
    // Gate 4 is the complement of input 1; gate 5 and an output turn it.
    let source = graph(2, &[5, 2, 7, 3, 9, 4], &[10, 9, 8]);
    let after = applied(&source, 4, &leaves(&[1, 2]), &kind_0(3));
    assert_eq!(after, Ok(graph(2, &[4, 2], &[6, 2, 3])));
}

#[test]
fn a_turned_gate_complements_its_references() {
    // Gate 8 is the complement of AND(4, 2), parted by input 3.
    let source = graph(3, &[6, 2, 8, 4, 7, 2, 12, 4, 15, 11], &[16, 17]);
    let all = leaves(&[1, 2, 3]);
    let good = list_of(&source, 8, &all).unwrap();
    assert!(good.contains(&record(kind_1(4, 2, 1), 4)));
    let after = applied(&source, 8, &all, &kind_1(4, 2, 1));
    assert_eq!(after, Ok(graph(3, &[4, 2], &[9, 8])));
}

#[test]
fn the_gain_leaves_out_gates_that_another_output_uses() {
    // As P11, but a second output keeps gate 3: only gate 4 goes.
    let source = graph(2, &[5, 3, 7, 2], &[8, 6]);
    let expected = vec![record(kind_0(2), 1)];
    assert_eq!(list_of(&source, 4, &leaves(&[1, 2])), Ok(expected));
}

#[test]
fn a_divisor_above_the_root_is_a_bad_candidate() {
    // Gate 4 equals gate 3 and is covered, but it stands above.
    let source = graph(2, &[4, 2, 4, 2], &[6, 8]);
    for proposal in [kind_0(8), kind_0(6), kind_1(8, 2, 0), kind_1(6, 2, 0)] {
        let answer = applied(&source, 3, &leaves(&[1, 2]), &proposal);
        assert_eq!(answer, Err(Refusal::BadCandidate));
    }
}

#[test]
fn fanins_are_larger_first_after_a_replacement() {
    // Gate 6 names 5 before 4; when 5 becomes 3 the order turns.
    let source = graph(2, &[4, 2, 5, 3, 6, 6, 10, 8], &[12]);
    let after = applied(&source, 5, &leaves(&[1, 2]), &kind_0(6)).unwrap();
    assert_eq!(after, graph(2, &[4, 2, 5, 3, 8, 6], &[10]));
}

#[test]
fn a_divisor_not_in_use_comes_back_into_use() {
    // Gate 3 is not in use; it can take the place of 4, which gains nothing.
    let source = graph(2, &[4, 2, 4, 2], &[8]);
    let answer = applied(&source, 4, &leaves(&[1, 2]), &kind_0(6));
    assert_eq!(answer, Err(Refusal::NoGain));
    assert_eq!(run_of(&source), Ok((graph(2, &[4, 2], &[6]), 0)));
}

#[test]
fn the_greatest_gain_wins() {
    // Gate 5 equals both others. Literal 6 keeps gate 3, literal 8 drops it.
    let source = graph(2, &[4, 2, 4, 2, 6, 2], &[10, 8]);
    assert_eq!(step(&source), Some(graph(2, &[4, 2], &[6, 6])));
}

#[test]
fn the_earliest_wins_on_ties() {
    // Literals 6 and 8 both gain 1.
    let source = graph(2, &[4, 2, 4, 2, 6, 2], &[6, 8, 10]);
    assert_eq!(step(&source), Some(graph(2, &[4, 2, 4, 2], &[6, 8, 6])));
}

//! Of several refusals of a call on a graph the lowest number is given. Each
//! test names two neighbours and breaks both rules at once.

use crate::given::*;
use model::{apply, evaluate, list, pick_leaves, run, table, write};
use model::{Graph, Leaves, Proposal, Refusal, Var};

/// A graph with its smaller fanin first.
fn bad_graph() -> Graph {
    graph(2, &[2, 4], &[6])
}

/// Applying without any room.
fn apply_without_room(root: u32, leaves: &Leaves, proposal: &Proposal) -> Refusal {
    apply(&e1(), Var(root), leaves, proposal, &mut [], &mut []).unwrap_err()
}

#[test]
fn bad_graph_comes_before_bad_assignment() {
    let answer = evaluate(&bad_graph(), &[2, 2, 2], &mut []);
    assert_eq!(answer, Err(Refusal::BadGraph));
}

#[test]
fn bad_assignment_comes_before_no_room() {
    assert_eq!(evaluate(&e1(), &[1], &mut []), Err(Refusal::BadAssignment));
    assert_eq!(
        evaluate(&e1(), &[1, 2], &mut []),
        Err(Refusal::BadAssignment)
    );
    assert_eq!(evaluate(&e1(), &[1, 1], &mut []), Err(Refusal::NoRoom));
}

#[test]
fn bad_graph_comes_before_bad_root() {
    let source = bad_graph();
    assert_eq!(pick_leaves(&source, Var(9)), Err(Refusal::BadGraph));
    let answer = table(&source, Var(9), &leaves(&[]));
    assert_eq!(answer, Err(Refusal::BadGraph));
}

#[test]
fn bad_graph_comes_before_no_room() {
    let source = bad_graph();
    assert_eq!(write(&source, &mut []), Err(Refusal::BadGraph));
    let answer = run(&source, &mut [], &mut [], &mut [], &mut []);
    assert_eq!(answer, Err(Refusal::BadGraph));
}

#[test]
fn bad_root_comes_before_bad_leaves() {
    let bad = leaves(&[0, 0]);
    assert_eq!(table(&e1(), Var(2), &bad), Err(Refusal::BadRoot));
    assert_eq!(apply_without_room(5, &bad, &kind_0(9)), Refusal::BadRoot);
}

#[test]
fn bad_leaves_come_before_not_a_cut() {
    for bad in [&[2, 1][..], &[2, 2], &[0, 2], &[4], &[5]] {
        let answer = table(&e1(), Var(4), &leaves(bad));
        assert_eq!(answer, Err(Refusal::BadLeaves), "{bad:?}");
    }
}

#[test]
fn an_unused_place_comes_before_not_a_cut() {
    let mut bad = leaves(&[2]);
    bad.places[5] = 3;
    assert_eq!(table(&e1(), Var(4), &bad), Err(Refusal::BadLeaves));
    bad.count = usize::MAX;
    assert_eq!(table(&e1(), Var(4), &bad), Err(Refusal::BadLeaves));
}

#[test]
fn not_a_cut_comes_before_bad_candidate() {
    let answer = apply_without_room(4, &leaves(&[2]), &kind_0(99));
    assert_eq!(answer, Refusal::NotACut);
}

#[test]
fn not_a_cut_comes_before_no_room() {
    let answer = list(&e1(), Var(4), &leaves(&[2]), &mut []);
    assert_eq!(answer.unwrap_err().refusal(), Refusal::NotACut);
}

#[test]
fn bad_candidate_comes_before_not_equal() {
    let both = leaves(&[1, 2]);
    let mut odd = kind_0(2);
    odd.second = 2;
    assert_eq!(apply_without_room(4, &both, &odd), Refusal::BadCandidate);
    odd = kind_0(2);
    odd.turned = 1;
    assert_eq!(apply_without_room(4, &both, &odd), Refusal::BadCandidate);
    for proposal in [
        kind_0(8),
        kind_0(10),
        kind_0(u32::MAX),
        kind_1(2, 4, 0),
        kind_1(4, 4, 0),
    ] {
        assert_eq!(
            apply_without_room(4, &both, &proposal),
            Refusal::BadCandidate
        );
    }
    for proposal in [
        kind_1(4, 5, 0),
        kind_1(4, 1, 0),
        kind_1(4, 2, 2),
        kind_1(8, 2, 0),
    ] {
        assert_eq!(
            apply_without_room(4, &both, &proposal),
            Refusal::BadCandidate
        );
    }
    odd = kind_1(4, 3, 0);
    odd.kind = 2;
    assert_eq!(apply_without_room(4, &both, &odd), Refusal::BadCandidate);
}

#[test]
fn not_equal_comes_before_no_gain() {
    let answer = apply_without_room(4, &leaves(&[1, 2]), &kind_1(6, 2, 1));
    assert_eq!(answer, Refusal::NotEqual);
}

#[test]
fn no_gain_comes_before_no_room() {
    let answer = apply_without_room(4, &leaves(&[1, 2]), &kind_1(6, 2, 0));
    assert_eq!(answer, Refusal::NoGain);
}

#[test]
fn no_room_comes_last() {
    let answer = apply_without_room(4, &leaves(&[1, 2]), &kind_0(6));
    assert_eq!(answer, Refusal::NoRoom);
}

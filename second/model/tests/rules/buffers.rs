//! Each call with buffers short by one, exact and longer. A refusal leaves
//! every lent word as it was; so does success past the need.

use crate::given::*;
use model::{apply, evaluate, list, read, run, write};
use model::{Graph, ListRefusal, Record, Refusal, Var};

const POISON: u32 = 0xDEAD_BEEF;

/// The needed words, then poison up to the length.
fn then_poison(words: &[u32], length: usize) -> Vec<u32> {
    let mut all = words.to_vec();
    all.resize(length, POISON);
    all
}

fn poison(length: usize) -> Vec<u32> {
    vec![POISON; length]
}

/// Lengths about a need, with whether each is enough.
fn about(need: usize) -> [(usize, bool); 3] {
    [(need - 1, false), (need, true), (need + 3, true)]
}

#[test]
fn reading_needs_two_words_a_gate_and_one_an_output() {
    for (gate_words, gates_fit) in about(4) {
        for (output_words, outputs_fit) in about(1) {
            let (mut gates, mut outputs) = (poison(gate_words), poison(output_words));
            let answer = read(E1.as_bytes(), &mut gates, &mut outputs);
            if gates_fit && outputs_fit {
                assert_eq!(answer, Ok((2, 2, 1)));
                assert_eq!(gates, then_poison(&[4, 2, 6, 2], gate_words));
                assert_eq!(outputs, then_poison(&[8], output_words));
            } else {
                assert_eq!(answer, Err(Refusal::NoRoom));
                assert_eq!((gates, outputs), (poison(gate_words), poison(output_words)));
            }
        }
    }
}

#[test]
fn a_refused_text_leaves_the_lists() {
    let texts = [
        "aag",
        "aag 65 65 0 0 0\n",
        "aag 1 0 1 0 0\n",
        "aag 1 0 0 0 0\n",
    ];
    let late = [
        "aag 4 2 0 1 2\n2\n4\n8\n6 4 2\n8 6\n",
        "aag 4 2 0 1 2\n2\n4\n8\n6 4 2\n8 9 2\n",
    ];
    for text in texts.iter().chain(&late) {
        let (mut gates, mut outputs) = (poison(8), poison(8));
        assert!(read(text.as_bytes(), &mut gates, &mut outputs).is_err());
        assert_eq!((gates, outputs), (poison(8), poison(8)));
    }
}

#[test]
fn writing_needs_the_bytes_of_the_text() {
    let need = E1.len();
    for (length, fits) in about(need) {
        let mut buffer = vec![0xEE; length];
        let answer = write(&e1(), &mut buffer);
        if fits {
            assert_eq!(answer, Ok(need));
            assert_eq!(&buffer[..need], E1.as_bytes());
            assert!(buffer[need..].iter().all(|&byte| byte == 0xEE));
        } else {
            assert_eq!(answer, Err(Refusal::NoRoom));
            assert_eq!(buffer, vec![0xEE; length]);
        }
    }
}

#[test]
fn evaluating_needs_one_word_an_output() {
    let source = graph(2, &[4, 2], &[6, 7, 0]);
    for (length, fits) in about(3) {
        let mut results = poison(length);
        let answer = evaluate(&source, &[1, 1], &mut results);
        if fits {
            assert_eq!(answer, Ok(()));
            assert_eq!(results, then_poison(&[1, 0, 0], length));
        } else {
            assert_eq!(answer, Err(Refusal::NoRoom));
            assert_eq!(results, poison(length));
        }
    }
}

#[test]
fn listing_needs_one_place_a_record() {
    let odd = record(kind_1(POISON, POISON, POISON), -1);
    let found = [record(kind_0(6), 1), record(kind_1(4, 2, 0), 1)];
    for (length, fits) in about(2) {
        let mut records = vec![odd; length];
        let answer = list(&e1(), Var(4), &leaves(&[1, 2]), &mut records);
        if fits {
            assert_eq!(answer, Ok(2));
            let mut expected: Vec<Record> = found.to_vec();
            expected.resize(length, odd);
            assert_eq!(records, expected);
        } else {
            assert_eq!(answer, Err(ListRefusal::NoRoom { needed: 2 }));
            assert_eq!(records, vec![odd; length]);
        }
    }
}

#[test]
fn applying_needs_the_words_of_the_finished_graph() {
    for (gate_words, gates_fit) in about(2) {
        for (output_words, outputs_fit) in about(1) {
            let (mut gates, mut outputs) = (poison(gate_words), poison(output_words));
            let (window, literal) = (leaves(&[1, 2]), kind_0(6));
            let answer = apply(&e1(), Var(4), &window, &literal, &mut gates, &mut outputs);
            if gates_fit && outputs_fit {
                assert_eq!(answer, Ok((1, 1)));
                assert_eq!(gates, then_poison(&[4, 2], gate_words));
                assert_eq!(outputs, then_poison(&[6], output_words));
            } else {
                assert_eq!(answer, Err(Refusal::NoRoom));
                assert_eq!((gates, outputs), (poison(gate_words), poison(output_words)));
            }
        }
    }
}

#[test]
fn a_refused_proposal_leaves_the_lists() {
    let refused = [
        (3, &[1][..], kind_0(6)),
        (2, &[1, 2], kind_0(6)),
        (4, &[2, 1], kind_0(6)),
        (4, &[1, 2], kind_0(8)),
        (4, &[1, 2], kind_0(2)),
        (4, &[1, 2], kind_1(6, 2, 0)),
    ];
    for (root, window, proposal) in refused {
        let (mut gates, mut outputs) = (poison(8), poison(8));
        let window = leaves(window);
        assert!(apply(
            &e1(),
            Var(root),
            &window,
            &proposal,
            &mut gates,
            &mut outputs
        )
        .is_err());
        assert_eq!((gates, outputs), (poison(8), poison(8)));
    }
}

/// The gates and outputs of the result, then those of the work.
type Lists = [Vec<u32>; 4];

/// A run into poisoned lists of these lengths.
fn run_with(source: &Graph, lengths: [usize; 4]) -> (Result<(usize, usize), Refusal>, Lists) {
    let mut lists = lengths.map(poison);
    let [gates, outputs, work_gates, work_outputs] = &mut lists;
    let answer = run(source, gates, outputs, work_gates, work_outputs);
    (answer, lists)
}

#[test]
fn a_run_needs_the_words_of_the_source_four_times() {
    let need = [4, 1, 4, 1];
    for short in 0..4 {
        let mut lengths = need.map(|words| words + 2);
        lengths[short] = need[short] - 1;
        let (answer, lists) = run_with(&e1(), lengths);
        assert_eq!(answer, Err(Refusal::NoRoom));
        assert_eq!(lists, lengths.map(poison));
    }
}

#[test]
fn a_run_leaves_zeros_where_it_needed_words_and_poison_behind() {
    for more in [0, 3] {
        let (answer, [gates, outputs, work_gates, work_outputs]) =
            run_with(&e1(), [4 + more, 1 + more, 4 + more, 1 + more]);
        assert_eq!(answer, Ok((1, 1)));
        assert_eq!(gates, then_poison(&[4, 2, 0, 0], 4 + more));
        assert_eq!(outputs, then_poison(&[6], 1 + more));
        assert_eq!(work_gates, then_poison(&[0; 4], 4 + more));
        assert_eq!(work_outputs, then_poison(&[0], 1 + more));
    }
}

#[test]
fn a_run_on_a_bad_graph_leaves_all_lists() {
    let (answer, lists) = run_with(&graph(2, &[2, 4], &[6]), [4; 4]);
    assert_eq!(answer, Err(Refusal::BadGraph));
    assert_eq!(lists, [4; 4].map(poison));
}

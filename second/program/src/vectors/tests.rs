//! The rows show every answer, and a sort that cannot be had is named.

use super::calls::Evaluate;
use super::sorts::{self, Sort};
use super::SEED;
use samples::Random;

/// Each call, how often each of its answers must come at least, and these. It
/// gives no others: a finished graph is well formed, so 15 is never given.
const ANSWERS: [(&str, usize, &[u64]); 8] = [
    ("read_call", 3, &[0, 1, 2, 3, 4, 5, 6, 16]),
    ("write_call", 3, &[0, 7, 16]),
    ("evaluate_call", 3, &[0, 7, 8, 16]),
    ("pick_call", 3, &[0, 7, 9]),
    ("table_call", 3, &[0, 7, 9, 10, 11]),
    ("list_call", 2, &[0, 7, 9, 10, 11, 16]),
    ("apply_call", 3, &[0, 7, 9, 10, 11, 12, 13, 14, 16]),
    ("run_call", 3, &[0, 7, 16]),
];

#[test]
fn every_call_gives_each_of_its_answers_and_no_other() {
    let rows = sorts::rows(&mut Random::new(SEED));
    for (call, times, answers) in ANSWERS {
        let given = || rows.iter().filter(|row| row.call == call);
        let count = |answer| given().filter(|row| row.says[0] == answer).count();
        for &answer in answers {
            assert!(count(answer) >= times, "{call}: {answer}");
        }
        assert!(given().all(|row| answers.contains(&row.says[0])), "{call}");
    }
}

#[test]
fn equal_seeds_give_equal_rows_and_none_comes_twice() {
    let rows = |seed| sorts::rows(&mut Random::new(seed));
    assert_eq!(rows(SEED), rows(SEED));
    assert_ne!(rows(SEED), rows(SEED + 1));
    let rows = rows(SEED);
    for (place, row) in rows.iter().enumerate() {
        assert!(!rows[..place].contains(row), "{row:?}");
    }
}

/// A sampler that a change makes too tame is noticed.
#[test]
#[should_panic(expected = "evaluate_call: no sample is of the sort: no answer")]
fn a_sort_that_is_not_met_is_named() {
    let sort: Sort<Evaluate> = (1, "no answer", |_, told| told.answer.is_empty());
    sorts::add(&[sort], &mut Random::new(SEED), &mut Vec::new());
}

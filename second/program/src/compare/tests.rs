//! A comparison succeeds only where every sample agrees and every answer came.

use super::tally::Calls;
use super::{in_numbers, poisoned, Comparison, Sort};
use model::Refusal;

/// What both sides should do: a number below five is doubled, others refused.
fn double(number: u32) -> Result<u32, Refusal> {
    Refusal::BadLiteral.unless(number < 5)?;
    Ok(2 * number)
}

/// A side in numbers: what it answers and leaves, given the lent word.
type Side = fn(number: u32, lent: u32) -> (u32, u32);

const RIGHT: Side = |number, lent| in_numbers(double(number), lent);

const BELOW_TEN: Sort<u32> = ("below ten", 100, |random| random.word_between(0, 9));

/// Whether the comparison of a side succeeds, and the lines that it prints.
fn compared(calls: Calls, side: Side) -> (bool, Vec<String>) {
    let mut out = Vec::new();
    let mut comparison = Comparison::new(calls, &mut out);
    let sorts = comparison.sorts("numbers", &[BELOW_TEN], |random, &number, tally| {
        let lent = poisoned(random, 1, |word| word as u32)[0];
        let told = side(number, lent);
        tally.answer("double", told.0);
        told == in_numbers(double(number), lent)
    });
    let succeeded = sorts.and_then(|()| comparison.report());
    let printed = String::from_utf8(out).expect("the report is ASCII");
    let lines = printed.lines().map(str::to_string).collect();
    (succeeded.expect("a vector takes every line"), lines)
}

/// Samples differ: some are shown, at most five, and the last line counts all.
fn assert_differs(calls: Calls, side: Side) {
    let (succeeded, lines) = compared(calls, side);
    assert!(!succeeded);
    let shown = lines.iter().filter(|line| line.starts_with("differs on "));
    assert!((1..=5).contains(&shown.count()));
    assert!(!lines.last().expect("a last line").ends_with(", 0 failed"));
}

#[test]
fn where_all_agree_and_every_answer_came_it_succeeds() {
    let (succeeded, lines) = compared(&[("double", &[0, 6])], RIGHT);
    assert!(succeeded);
    assert_eq!(lines[0], "100 numbers: below ten");
    assert_eq!(lines[2..], ["100 passed, 0 failed"]);
}

#[test]
fn a_wrong_answer_fails() {
    assert_differs(&[("double", &[0])], |number, _| (0, 2 * number));
    assert_differs(&[("double", &[0, 6])], |number, lent| match number {
        7 => (99, lent),
        _ => RIGHT(number, lent),
    });
}

#[test]
fn a_refusal_that_writes_to_lent_memory_fails() {
    assert_differs(&[("double", &[0, 6])], |number, _| RIGHT(number, 0));
}

#[test]
fn an_answer_that_never_came_fails() {
    let (succeeded, lines) = compared(&[("double", &[0, 6, 16])], RIGHT);
    assert!(!succeeded);
    assert!(lines[1].ends_with("; never [16]"));
    assert_eq!(lines[2..], ["100 passed, 1 failed"]);
}

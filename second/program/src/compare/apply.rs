//! Compares the proved call that applies a proposal with this program's. More
//! than half of the proposals are good ones from this program's lists, counted
//! by kind. Others are wrong on one pattern, each of the 64 in turn, and the
//! rest may be anything. A finished graph is judged here as well: its outputs
//! have their old values, and fewer gates are in use.

mod cases;

use super::tally::{Calls, Tally};
use super::{in_numbers, judged, poisoned, Comparison};
use cases::Case;
use model::Graph;
use samples::Random;
use std::io::{self, Write};

/// A listed proposal can be refused for room alone.
const CALLS: Calls = &[
    ("listed literal", &[0, 16]),
    ("listed AND", &[0, 16]),
    ("listed turned AND", &[0, 16]),
    ("wrong on one pattern", &[13]),
    ("any proposal", &[0, 7, 9, 10, 11, 12, 13, 14, 16]),
];

pub fn compare(out: &mut dyn Write) -> io::Result<bool> {
    let mut comparison = Comparison::new(CALLS, out);
    for (name, graphs, draw) in cases::SORTS {
        let cases = cases::cases(&mut comparison.random, graphs, draw);
        let title = format!("{} proposals on {graphs} graphs: {name}", cases.len());
        comparison.samples(&title, cases, same_answer)?;
    }
    let near = cases::wrong_on_one_pattern(&mut comparison.random);
    let title = format!("{} proposals: wrong on one pattern", near.len());
    comparison.samples(&title, near, same_answer)?;
    comparison.report()
}

fn same_answer(random: &mut Random, case: &Case, tally: &mut Tally) -> bool {
    let mut words = poisoned(random, case.room.0, |word| word as u32);
    let mut results = poisoned(random, case.room.1, |word| word as u32);
    let (mut other_words, mut other_results) = (words.clone(), results.clone());
    let poison = [0; 2].map(|_| random.word() as usize);
    let mut counts = poison;
    let number = proved::apply(
        &case.graph,
        case.root.0,
        &case.leaves,
        &case.proposal,
        &mut words,
        &mut results,
        &mut counts,
    );
    let expected = model::apply(
        &case.graph,
        case.root,
        &case.leaves,
        &case.proposal,
        &mut other_words,
        &mut other_results,
    );
    let expected = expected.map(|(gates, outputs)| [gates, outputs]);
    tally.answer(case.sort, number);
    (number, counts) == in_numbers(expected, poison)
        && (&words, &results) == (&other_words, &other_results)
        && (number != 0 || {
            let after = finished(case.graph.inputs, counts, &words, &results);
            judged::may_replace(random, &case.graph, &after)
        })
}

/// The graph that was left in lent words.
fn finished(inputs: u64, [gates, outputs]: [usize; 2], words: &[u32], results: &[u32]) -> Graph {
    Graph {
        inputs,
        gates: words[..2 * gates].to_vec(),
        outputs: results[..outputs].to_vec(),
    }
}

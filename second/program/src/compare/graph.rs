//! Compares the proved calls on a graph with this program's: evaluating, the
//! leaf rule and tables. Every call is made on each graph, with arguments good
//! and bad of every sort, and what a refusal must leave is poisoned beforehand.

pub mod arguments;
pub mod graphs;

use super::tally::{Calls, Tally};
use super::{in_numbers, poisoned, Comparison};
use model::{Graph, Leaves};
use samples::{edges, Random};
use std::io::{self, Write};

const CALLS: Calls = &[
    ("evaluate", &[0, 7, 8, 16]),
    ("pick", &[0, 7, 9]),
    ("table", &[0, 7, 9, 10, 11]),
];

pub fn compare(out: &mut dyn Write) -> io::Result<bool> {
    let mut comparison = Comparison::new(CALLS, out);
    comparison.sorts("graphs", &graphs::SORTS, same_answers)?;
    let edges = edges::edges().into_iter().map(|edge| edge.graph);
    let edges: Vec<Graph> = edges.collect();
    let title = format!("{} graphs: the edge of each limit and rule", edges.len());
    comparison.samples(&title, edges, same_answers)?;
    comparison.report()
}

fn same_answers(random: &mut Random, graph: &Graph, tally: &mut Tally) -> bool {
    same_values(random, graph, tally)
        && same_leaves(random, graph, tally)
        && same_tables(random, graph, tally)
}

fn same_values(random: &mut Random, graph: &Graph, tally: &mut Tally) -> bool {
    let evaluations = arguments::evaluations(random, graph);
    evaluations.into_iter().all(|(assignment, room)| {
        let mut lent = poisoned(random, room, |word| word as u32);
        let mut other = lent.clone();
        let poison = random.word() as usize;
        let mut count = poison;
        let number = proved::evaluate(graph, &assignment, &mut lent, &mut count);
        let expected = model::evaluate(graph, &assignment, &mut other);
        let expected = expected.map(|()| graph.outputs.len());
        tally.answer("evaluate", number);
        (number, count) == in_numbers(expected, poison) && lent == other
    })
}

fn same_leaves(random: &mut Random, graph: &Graph, tally: &mut Tally) -> bool {
    let roots = arguments::roots(random, graph);
    roots.into_iter().all(|root| {
        let poison = Leaves {
            count: random.word() as usize,
            places: [0; 6].map(|_| random.word() as u32),
        };
        let mut leaves = poison;
        let number = proved::pick(graph, root.0, &mut leaves);
        let expected = model::pick_leaves(graph, root);
        tally.answer("pick", number);
        (number, leaves) == in_numbers(expected, poison)
    })
}

fn same_tables(random: &mut Random, graph: &Graph, tally: &mut Tally) -> bool {
    let windows = arguments::windows(random, graph);
    windows.into_iter().all(|(root, leaves)| {
        let poison = random.word();
        let mut bits = poison;
        let number = proved::table(graph, root.0, &leaves, &mut bits);
        let expected = model::table(graph, root, &leaves);
        tally.answer("table", number);
        (number, bits) == in_numbers(expected, poison)
    })
}

//! Compares the proved reader and writer with this program's: the answer and
//! every word of the lent buffers, which are poisoned beforehand, in buffers
//! too short by one, exact and longer.

mod texts;

use super::tally::{Calls, Tally};
use super::{in_numbers, poisoned, Comparison};
use model::graph::{MOST_GATES, MOST_OUTPUTS};
use model::Graph;
use samples::{edges, graphs, Random};
use std::io::{self, Write};
use std::iter;

const CALLS: Calls = &[("read", &[0, 1, 2, 3, 4, 5, 6, 16]), ("write", &[0, 7, 16])];
const GRAPHS: usize = 4_000;

pub fn compare(out: &mut dyn Write) -> io::Result<bool> {
    let mut comparison = Comparison::new(CALLS, out);
    comparison.sorts("texts", &texts::SORTS, |random, text, tally| {
        same_reading(random, text, tally)
    })?;
    let title = format!("{GRAPHS} graphs and {} edges", edges::edges().len());
    let graphs = lent_graphs(&mut comparison.random);
    comparison.samples(&title, graphs, same_writing)?;
    comparison.report()
}

// ---- reading

fn same_reading(random: &mut Random, text: &[u8], tally: &mut Tally) -> bool {
    let rooms = rooms(random, text);
    rooms.into_iter().all(|(gates, outputs)| {
        let mut words = |length| poisoned(random, length, |word| word as u32);
        let mut lent = (words(gates), words(outputs));
        let mut other = lent.clone();
        let poison = [random.word() as usize; 3];
        let mut counts = poison;
        let number = proved::read(text, &mut lent.0, &mut lent.1, &mut counts);
        let expected = model::read(text, &mut other.0, &mut other.1);
        let expected = expected.map(|(inputs, gates, outputs)| [inputs as usize, gates, outputs]);
        tally.answer("read", number);
        (number, counts) == in_numbers(expected, poison) && lent == other
    })
}

/// Words for gates and for outputs: around the need of a graph that is stated,
/// and any for a text that is refused.
fn rooms(random: &mut Random, text: &[u8]) -> Vec<(usize, usize)> {
    let (mut gates, mut outputs) = (vec![0; 2 * MOST_GATES], vec![0; MOST_OUTPUTS]);
    let Ok((_, gates, outputs)) = model::read(text, &mut gates, &mut outputs) else {
        let some = (random.between(0, 9), random.between(0, 9));
        return vec![(0, 0), some, (2 * MOST_GATES, MOST_OUTPUTS)];
    };
    let (gates, longer) = (2 * gates, random.between(1, 9));
    let mut rooms = vec![(gates, outputs), (gates + longer, outputs + longer)];
    if gates > 0 {
        rooms.push((gates - 1, outputs));
    }
    if outputs > 0 {
        rooms.push((gates, outputs - 1));
    }
    rooms
}

// ---- writing

/// Graphs to write: well formed, with one fault, and at every limit.
fn lent_graphs(random: &mut Random) -> Vec<Graph> {
    let drawn = |random: &mut Random| match random.between(0, 9) {
        0 => graphs::big(random),
        1..=6 => graphs::any(random),
        _ => edges::spoiled(random),
    };
    let at_limits = edges::edges().into_iter().map(|edge| edge.graph);
    let drawn = iter::repeat_with(|| drawn(random)).take(GRAPHS);
    at_limits.chain(drawn).collect()
}

fn same_writing(random: &mut Random, graph: &Graph, tally: &mut Tally) -> bool {
    let need = model::write(graph, &mut vec![0; 65_535]).unwrap_or(9);
    [need - 1, need, need + random.between(1, 99)]
        .into_iter()
        .all(|room| {
            let mut lent = poisoned(random, room, |word| word as u8);
            let mut other = lent.clone();
            let poison = random.word() as usize;
            let mut length = poison;
            let number = proved::write(graph, &mut lent, &mut length);
            let expected = model::write(graph, &mut other);
            tally.answer("write", number);
            (number, length) == in_numbers(expected, poison) && lent == other
        })
}

//! The texts to compare: stated graphs, damage of every sort, single numbers
//! and first lines at the limits, rests, noise, long texts.

use crate::compare::Sort;
use samples::damage::damaged;
use samples::odd_texts::{any_rest, cut_anywhere, first_line, noise, one_number_changed};
use samples::texts::valid;
use samples::{graphs, Random};

pub const SORTS: [Sort<Vec<u8>>; 9] = [
    ("stated graphs, any order, any rest", 5_000, stated),
    ("damaged once to three times", 9_000, wrong),
    ("one number at the edge of its rule", 1_500, edge),
    ("a rest that may be wrong", 1_000, rest),
    ("cut anywhere", 2_000, cut),
    ("first lines at the limits, odd numbers", 4_000, first_line),
    ("noise", 2_500, noise),
    ("up to 1,024 gates, whole or damaged", 400, large),
    ("around 65,535 bytes, good or wrong", 400, long),
];

fn stated(random: &mut Random) -> Vec<u8> {
    let graph = graphs::any(random);
    valid(random, &graph)
}

fn wrong(random: &mut Random) -> Vec<u8> {
    let text = stated(random);
    damaged(random, &text)
}

fn edge(random: &mut Random) -> Vec<u8> {
    let graph = graphs::any(random);
    one_number_changed(random, &graph)
}

fn rest(random: &mut Random) -> Vec<u8> {
    let graph = graphs::small(random);
    any_rest(random, &graph)
}

fn cut(random: &mut Random) -> Vec<u8> {
    let graph = graphs::small(random);
    cut_anywhere(random, &graph)
}

fn large(random: &mut Random) -> Vec<u8> {
    let graph = graphs::big(random);
    let text = valid(random, &graph);
    match random.coin() {
        true => text,
        false => damaged(random, &text),
    }
}

/// Any text, filled up with a comment, so that 2 meets every other refusal.
fn long(random: &mut Random) -> Vec<u8> {
    let mut text = match random.between(0, 3) {
        0 => first_line(random),
        1 => wrong(random),
        _ => stated(random),
    };
    text.resize(random.between(65_530, 65_540), b'c');
    text
}

//! Sorts of readings and writings.

use super::Sort;
use crate::vectors::calls::{Read, Told, Write};
use model::graph::{MOST_GATES, MOST_INPUTS, MOST_OUTPUTS};
use model::text::parse;
use model::Refusal::{
    BadCount, BadGraph, BadHeader, BadLine, BadLiteral, Latches, NoRoom, TooLarge,
};

pub const READ: [Sort<Read>; 16] = [
    (30, "a stated graph", |_, told| told.is_accepted()),
    (20, "a bad header", |_, told| told.is(BadHeader)),
    (6, "too large by inputs", |call, told| {
        told.is(TooLarge) && over_limits(call) == [true, false, false]
    }),
    (6, "too large by outputs", |call, told| {
        told.is(TooLarge) && over_limits(call) == [false, true, false]
    }),
    (6, "too large by gates", |call, told| {
        told.is(TooLarge) && over_limits(call) == [false, false, true]
    }),
    (6, "latches", |_, told| told.is(Latches)),
    (3, "latches and a bad count", |call, told| {
        told.is(Latches) && !counts_agree(call)
    }),
    (9, "a bad count", |_, told| told.is(BadCount)),
    (2, "inputs at their limit", |call, told| {
        header_is_taken(told) && at_limits(call)[0]
    }),
    (2, "outputs at their limit", |call, told| {
        header_is_taken(told) && at_limits(call)[1]
    }),
    (2, "gates at their limit", |call, told| {
        header_is_taken(told) && at_limits(call)[2]
    }),
    (28, "a bad line", |_, told| told.is(BadLine)),
    (6, "a bad rest", |call, told| {
        told.is(BadLine) && has_bad_rest(call)
    }),
    (28, "a bad literal", |_, told| told.is(BadLiteral)),
    (4, "too few words for gates", |call, told| {
        lacks(call, told) == [true, false]
    }),
    (4, "too few words for outputs", |call, told| {
        lacks(call, told) == [false, true]
    }),
];

/// M, I, L, O and A of a first line that has them.
fn header(call: &Read) -> Option<[u64; 5]> {
    let line = call.text.split(|&byte| byte == b'\n').next()?;
    let fields = std::str::from_utf8(line).ok()?.split(' ').skip(1);
    let numbers: Result<Vec<u64>, _> = fields.map(str::parse).collect();
    numbers.ok()?.try_into().ok()
}

fn counts_agree(call: &Read) -> bool {
    header(call).is_some_and(|[most, inputs, _, _, gates]| most == inputs + gates)
}

/// Refusals 1 to 4 are the header's.
fn header_is_taken(told: &Told) -> bool {
    !(1..=4).contains(&told.number())
}

/// How inputs, outputs and gates compare with their limits.
fn limits(call: &Read, to: fn(&u64, &u64) -> bool) -> [bool; 3] {
    let [_, inputs, _, outputs, gates] = header(call).unwrap_or_default();
    [
        to(&inputs, &MOST_INPUTS),
        to(&outputs, &(MOST_OUTPUTS as u64)),
        to(&gates, &(MOST_GATES as u64)),
    ]
}

fn over_limits(call: &Read) -> [bool; 3] {
    limits(call, u64::gt)
}

fn at_limits(call: &Read) -> [bool; 3] {
    limits(call, u64::eq)
}

/// Whether the text states a graph without its last bytes.
fn has_bad_rest(call: &Read) -> bool {
    let ends = (0..call.text.len()).rev();
    ends.take(9).any(|end| parse(&call.text[..end]).is_ok())
}

/// Whether gates and outputs find too few words, and that is said.
fn lacks(call: &Read, told: &Told) -> [bool; 2] {
    let stated = parse(&call.text).unwrap_or_default();
    call.room.lacks(&stated).map(|lack| lack && told.is(NoRoom))
}

pub const WRITE: [Sort<Write>; 3] = [
    (8, "a text", |_, told| told.is_accepted()),
    (5, "a bad graph", |_, told| told.is(BadGraph)),
    (4, "too few bytes", |_, told| told.is(NoRoom)),
];

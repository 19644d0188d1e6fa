//! Sorts of evaluations and runs.

use super::Sort;
use crate::vectors::calls::{Evaluate, Run, Told};
use model::Refusal::{BadAssignment, BadGraph, NoRoom};

pub const EVALUATE: [Sort<Evaluate>; 7] = [
    (8, "any values", |_, told| told.is_accepted()),
    (6, "results of both values", |_, told| {
        told.is_accepted() && told.left.contains(&0) && told.left.contains(&1)
    }),
    (6, "a bad graph", |_, told| told.is(BadGraph)),
    (4, "a value of 2", |call, told| {
        told.is(BadAssignment) && is_complete(call) && call.values.contains(&2)
    }),
    (3, "too few values", |call, told| {
        told.is(BadAssignment) && (call.values.len() as u64) < call.graph.inputs
    }),
    (3, "too many values", |call, told| {
        told.is(BadAssignment) && call.values.len() as u64 > call.graph.inputs
    }),
    (4, "too few words", |_, told| told.is(NoRoom)),
];

fn is_complete(call: &Evaluate) -> bool {
    call.values.len() as u64 == call.graph.inputs
}

pub const RUN: [Sort<Run>; 11] = [
    (3, "no replacement, gates left", |_, told| {
        made(told) == Some(0) && leaves_gates(told)
    }),
    (3, "one replacement, gates left", |_, told| {
        made(told) == Some(1) && leaves_gates(told)
    }),
    (2, "two replacements or more, gates left", |_, told| {
        made(told) >= Some(2) && leaves_gates(told)
    }),
    (6, "replacements until no gate is left", |_, told| {
        made(told) >= Some(1) && !leaves_gates(told)
    }),
    (4, "gates not in use", |call, told| {
        told.is_accepted() && has_unused(call)
    }),
    (3, "gates not in use and a replacement", |call, told| {
        made(told) >= Some(1) && has_unused(call)
    }),
    (4, "a bad graph", |_, told| told.is(BadGraph)),
    (2, "too few result words for gates", |call, told| {
        lacks(call, told) == [true, false, false, false]
    }),
    (2, "too few result words for outputs", |call, told| {
        lacks(call, told) == [false, true, false, false]
    }),
    (2, "too few work words for gates", |call, told| {
        lacks(call, told) == [false, false, true, false]
    }),
    (2, "too few work words for outputs", |call, told| {
        lacks(call, told) == [false, false, false, true]
    }),
];

/// How many replacements a run made.
fn made(told: &Told) -> Option<u64> {
    told.answer.get(2).copied()
}

fn leaves_gates(told: &Told) -> bool {
    told.answer[1] > 0
}

fn has_unused(call: &Run) -> bool {
    call.graph.gates_in_use() < call.graph.gate_count()
}

/// Which of the four lists is too short, where that is said.
fn lacks(call: &Run, told: &Told) -> [bool; 4] {
    let rooms = [&call.result, &call.work];
    let [[a, b], [c, d]] = rooms.map(|room| room.lacks(&call.graph));
    [a, b, c, d].map(|lack| lack && told.is(NoRoom))
}

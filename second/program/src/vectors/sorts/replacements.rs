//! Sorts of lists and of applied proposals.

use super::Sort;
use crate::vectors::arguments::Site;
use crate::vectors::calls::{Apply, List, Told};
use model::Refusal::{
    BadCandidate, BadGraph, BadLeaves, BadRoot, NoGain, NoRoom, NotACut, NotEqual,
};
use model::{replace, Lit, Record};
use samples::proposals;

pub const LIST: [Sort<List>; 11] = [
    (2, "records of both kinds", |call, told| {
        let records = listed(call, told);
        [0, 1]
            .iter()
            .all(|&kind| records.iter().any(|record| record.kind == kind))
    }),
    (2, "a turned record", |call, told| {
        listed(call, told).iter().any(|record| record.turned == 1)
    }),
    (1, "a gain of 2 or more", |call, told| {
        listed(call, told).iter().any(|record| record.gain >= 2)
    }),
    (2, "three records or more", |call, told| {
        listed(call, told).len() >= 3
    }),
    (2, "a record of kind 1 over three leaves", |call, told| {
        let records = listed(call, told);
        call.site.leaves.count >= 3 && records.iter().any(|record| record.kind == 1)
    }),
    (2, "an empty list", |call, told| {
        told.answer == [0, 0] && call.room > 0
    }),
    (2, "no room for three records or more", |call, told| {
        call.room > 0 && told.is(NoRoom) && told.answer[1] >= 3
    }),
    (3, "a bad graph", |_, told| told.is(BadGraph)),
    (3, "a bad root", |_, told| told.is(BadRoot)),
    (3, "bad leaves", |_, told| told.is(BadLeaves)),
    (3, "no cut", |_, told| told.is(NotACut)),
];

/// The records of a list, none where it is over one leaf or none: so few
/// tables differ there that such lists would crowd out the others.
fn listed(call: &List, told: &Told) -> Vec<Record> {
    let count = match told.answer[..] {
        [0, count] if call.site.leaves.count >= 2 => count,
        _ => 0,
    };
    let words = told.left.chunks_exact(5).take(count as usize);
    words.map(record).collect()
}

fn record(words: &[u64]) -> Record {
    Record {
        kind: words[0] as u32,
        first: words[1] as u32,
        second: words[2] as u32,
        turned: words[3] as u32,
        gain: words[4] as i64,
    }
}

pub const APPLY: [Sort<Apply>; 23] = [
    (8, "kind 0 on a variable, gates left", |call, told| {
        leaves_gates(told) && call.proposal.kind == 0 && call.proposal.first > 1
    }),
    (4, "kind 0 on the constant, gates left", |call, told| {
        leaves_gates(told) && call.proposal.kind == 0 && call.proposal.first <= 1
    }),
    (12, "kind 1, gates left", |call, told| {
        leaves_gates(told) && call.proposal.kind == 1 && call.proposal.turned == 0
    }),
    (12, "kind 1 turned, gates left", |call, told| {
        leaves_gates(told) && call.proposal.kind == 1 && call.proposal.turned == 1
    }),
    (3, "no gate left", |_, told| {
        told.is_accepted() && !leaves_gates(told)
    }),
    (3, "a complemented reference", |call, told| {
        leaves_gates(told) && has_complemented_reference(call)
    }),
    (3, "fanins that change places", |call, told| {
        leaves_gates(told) && has_swapped_fanins(call)
    }),
    (4, "a bad graph", |_, told| told.is(BadGraph)),
    (4, "a bad root", |_, told| told.is(BadRoot)),
    (4, "bad leaves", |_, told| told.is(BadLeaves)),
    (4, "no cut", |_, told| told.is(NotACut)),
    (2, "neither kind", |call, told| {
        told.is(BadCandidate) && call.proposal.kind > 1
    }),
    (2, "a turned bit of 2 or more", |call, told| {
        told.is(BadCandidate) && call.proposal.turned > 1
    }),
    (2, "kind 0 with a second literal", |call, told| {
        told.is(BadCandidate) && call.proposal.kind == 0 && call.proposal.second != 0
    }),
    (2, "kind 0 with a turned bit", |call, told| {
        told.is(BadCandidate) && call.proposal.kind == 0 && call.proposal.turned == 1
    }),
    (4, "kind 0 against its rule", |call, told| {
        told.is(BadCandidate) && call.proposal.kind == 0
    }),
    (6, "kind 1 against its rule", |call, told| {
        told.is(BadCandidate) && call.proposal.kind == 1
    }),
    (8, "tables that differ", |_, told| told.is(NotEqual)),
    (6, "tables that differ on few patterns", |call, told| {
        told.is(NotEqual) && wrong_patterns(call) <= 4
    }),
    (8, "no gain", |_, told| told.is(NoGain)),
    (2, "a gain below 0", |call, told| {
        told.is(NoGain) && replace::gain(&call.site.graph, call.site.root, &call.proposal) < 0
    }),
    (4, "too few words for gates", |call, told| {
        lacks(call, told) == [true, false]
    }),
    (4, "too few words for outputs", |call, told| {
        lacks(call, told) == [false, true]
    }),
];

fn leaves_gates(told: &Told) -> bool {
    told.is_accepted() && told.answer[1] > 0
}

/// Whether gates and outputs find too few words, where that is said: only then
/// is there a finished graph.
fn lacks(call: &Apply, told: &Told) -> [bool; 2] {
    let Apply { site, proposal, .. } = call;
    let finished = || replace::finished(&site.graph, site.root, proposal);
    match told.is(NoRoom) {
        true => call.room.lacks(&finished()),
        false => [false, false],
    }
}

/// The fanins of each gate in use that names the root.
fn references(call: &Apply) -> Vec<[Lit; 2]> {
    let Site { graph, root, .. } = &call.site;
    let marks = graph.marks();
    let in_use = graph.numbered_gates().filter(|gate| marks[gate.0.index()]);
    let fanins = in_use.map(|(_, high, low)| [high, low]);
    let names_root = |fanins: &[Lit; 2]| fanins.iter().any(|lit| lit.var() == *root);
    fanins.filter(names_root).collect()
}

fn has_complemented_reference(call: &Apply) -> bool {
    let complement = call.site.root.lit(true);
    references(call).concat().contains(&complement)
}

/// Whether the literal that stands in for the root is smaller than the one
/// behind it.
fn has_swapped_fanins(call: &Apply) -> bool {
    let Apply { site, proposal, .. } = call;
    let is_swapped = |low: Lit| Lit(proposal.first).var() < low.var() && low.var() < site.root;
    proposal.kind == 0 && references(call).iter().any(|fanins| is_swapped(fanins[1]))
}

fn wrong_patterns(call: &Apply) -> u32 {
    let window = call.site.window().expect("the window is not refused");
    proposals::wrong_patterns(&window, &call.proposal)
}

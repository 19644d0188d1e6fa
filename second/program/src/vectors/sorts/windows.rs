//! Sorts of picked leaves and of tables.

use super::Sort;
use crate::vectors::arguments::Site;
use crate::vectors::calls::{Pick, Table, Told};
use model::Refusal::{BadGraph, BadLeaves, BadRoot, NotACut};
use model::{Graph, Leaves, Var};

pub const PICK: [Sort<Pick>; 7] = [
    (24, "six leaves", |_, told| told.answer == [0, 6]),
    (8, "fewer leaves", |_, told| {
        told.is_accepted() && told.answer[1] < 6
    }),
    (20, "a tie that decides", |call, told| {
        told.is_accepted() && a_tie_decides(call, told)
    }),
    (6, "a bad graph", |_, told| told.is(BadGraph)),
    (2, "a root that is no gate", |call, told| {
        told.is(BadRoot) && call.root <= call.graph.last_var() && !is_gate(call)
    }),
    (2, "a root past the last gate", |call, told| {
        told.is(BadRoot) && call.root > call.graph.last_var()
    }),
    (3, "a root not in use", |call, told| {
        told.is(BadRoot) && is_gate(call)
    }),
];

fn is_gate(call: &Pick) -> bool {
    call.graph.place(call.root).is_some()
}

/// Whether the rule picks other leaves where ties go to the lowest variable.
fn a_tie_decides(call: &Pick, told: &Told) -> bool {
    let [high, low] = call.graph.fanins(call.root).expect("the root is a gate");
    let mut leaves = Leaves::of([high.var(), low.var()]).expect("two leaves fit");
    while let Some(expansion) = lowest_best_expansion(leaves, &call.graph) {
        leaves = expansion;
    }
    told.left != leaves.places.map(u64::from)
}

/// The smallest expansion, the first one on ties; leaves ascend.
fn lowest_best_expansion(leaves: Leaves, graph: &Graph) -> Option<Leaves> {
    let vars: Vec<Var> = leaves.vars().collect();
    let expansions = vars.iter().filter_map(|&leaf| leaves.expanded(graph, leaf));
    expansions.min_by_key(|expansion| expansion.count)
}

pub const TABLE: [Sort<Table>; 11] = [
    (14, "six leaves", |call, told| {
        told.is_accepted() && call.site.leaves.count == 6
    }),
    (10, "fewer leaves", |call, told| {
        told.is_accepted() && call.site.leaves.count < 6
    }),
    (4, "a leaf whose fanins are leaves too", |call, told| {
        told.is_accepted() && has_covered_leaf(call)
    }),
    (4, "a bad graph", |_, told| told.is(BadGraph)),
    (4, "a bad root", |_, told| told.is(BadRoot)),
    (2, "more than six leaves", |call, told| {
        told.is(BadLeaves) && call.site.leaves.count > 6
    }),
    (2, "leaves that do not ascend", |call, told| {
        told.is(BadLeaves) && used(call).windows(2).any(|pair| pair[0] >= pair[1])
    }),
    (2, "a leaf that is 0", |call, told| {
        told.is(BadLeaves) && used(call).contains(&0)
    }),
    (2, "a leaf not below the root", |call, told| {
        told.is(BadLeaves) && used(call).iter().any(|&leaf| leaf >= call.site.root.0)
    }),
    (2, "an unused place that is not 0", |call, told| {
        told.is(BadLeaves) && unused(call).iter().any(|&place| place != 0)
    }),
    (6, "no cut", |_, told| told.is(NotACut)),
];

/// The used places; none where the count is bad.
fn used(call: &Table) -> &[u32] {
    let leaves = &call.site.leaves;
    leaves.places.get(..leaves.count).unwrap_or_default()
}

fn unused(call: &Table) -> &[u32] {
    let leaves = &call.site.leaves;
    leaves.places.get(leaves.count..).unwrap_or_default()
}

/// Such a leaf is free all the same.
fn has_covered_leaf(call: &Table) -> bool {
    let Site { graph, leaves, .. } = &call.site;
    let mut fanins = leaves.vars().filter_map(|leaf| graph.fanins(leaf));
    fanins.any(|fanins| fanins.iter().all(|lit| leaves.has(lit.var())))
}

//! Proposals, each with its graph, a root, leaves and room for the result.

use crate::compare::graph::arguments;
use crate::compare::graph::graphs::{deep, edge, idle, many, odd};
use crate::compare::Sort;
use model::leaves::leaf_rule;
use model::listing::Search;
use model::reach::Reach;
use model::replace::finished;
use model::window::{self, Window};
use model::{Graph, Leaves, Proposal, Var};
use samples::graphs::{self, MID, SMALL};
use samples::{edges, near, odd_graphs, proposals, windows, Random};
use std::rc::Rc;

/// The graphs to propose on.
pub const SORTS: [Sort<Graph>; 11] = [
    ("small", 4_000, graphs::small),
    ("small, with much said twice", 8_000, twice_small),
    ("up to 96 gates, with much said twice", 3_000, twice),
    ("few outputs, so that gates are not in use", 3_000, idle),
    ("deep, each gate on the one before it", 100, deep),
    ("up to 1,024 gates", 100, graphs::big),
    ("one fault", 2_500, edges::spoiled),
    ("one word at the edge of its rule", 2_500, edge),
    ("odd gate lists", 500, odd),
    ("input counts past the limit", 500, many),
    ("noise", 1_500, odd_graphs::noise),
];

/// What is listed: the sort's name, kind and turned bit.
const LISTED: [(&str, u32, u32); 3] = [
    ("listed literal", 0, 0),
    ("listed AND", 1, 0),
    ("listed turned AND", 1, 1),
];

/// At how many roots of a graph lists are made, and how many proposals are
/// taken from each of them, by kind.
const ROOTS: usize = 4;
const MOST_OF_KIND: usize = 2;
/// A list can be long; this many records are looked at.
const MOST_LISTED: usize = 500;
/// How many proposals are wrong on each pattern.
const WRONG_ON_EACH: usize = 60;
/// Every proposal is looked at, for equal tables, below roots up to this one.
const SMALL_ROOT: u32 = 24;

#[derive(Debug)]
pub struct Case {
    /// What its answer counts for.
    pub sort: &'static str,
    pub graph: Rc<Graph>,
    pub root: Var,
    pub leaves: Leaves,
    pub proposal: Proposal,
    /// Words lent for the gates and for the outputs.
    pub room: (usize, usize),
}

fn twice_small(random: &mut Random) -> Graph {
    graphs::redundant(random, SMALL)
}

fn twice(random: &mut Random) -> Graph {
    graphs::redundant(random, MID)
}

/// Proposals on so many graphs. A graph gets half as many others as listed
/// ones, and one other where nothing is listed, as on every damaged graph.
pub fn cases(random: &mut Random, graphs: usize, draw: fn(&mut Random) -> Graph) -> Vec<Case> {
    let mut cases = Vec::new();
    for _ in 0..graphs {
        let graph = Rc::new(draw(random));
        let listed = listed(random, &graph);
        let others = (listed.len() / 2).max(1);
        cases.extend(listed);
        cases.extend((0..others).map(|_| other(random, &graph)));
    }
    cases
}

/// Proposals wrong on each of the 64 patterns in turn.
pub fn wrong_on_one_pattern(random: &mut Random) -> Vec<Case> {
    let patterns = (0..64).cycle().take(64 * WRONG_ON_EACH);
    let case = |pattern| {
        let (graph, root, leaves, proposal) = near::wrong_on(random, pattern);
        let room = room(random, &graph, root, &proposal);
        Case {
            sort: "wrong on one pattern",
            graph: Rc::new(graph),
            root,
            leaves,
            proposal,
            room,
        }
    };
    patterns.map(case).collect()
}

/// Some of this program's lists at some roots.
fn listed(random: &mut Random, graph: &Rc<Graph>) -> Vec<Case> {
    if !graph.is_well_formed() {
        return Vec::new();
    }
    let reach = Reach::new(graph);
    let roots = random.some(&windows::gates_in_use(graph), ROOTS);
    let at_root = |root| listed_at(random, graph, &reach, root);
    roots.into_iter().flat_map(at_root).collect()
}

/// Some of the list at one root, of each kind.
fn listed_at(random: &mut Random, graph: &Rc<Graph>, reach: &Reach, root: Var) -> Vec<Case> {
    let leaves = cut(random, graph, root);
    let search = Search::new(graph, reach, root, &leaves);
    let records = search.good().take(MOST_LISTED);
    let good: Vec<Proposal> = records.map(|record| record.proposal()).collect();
    let mut cases = Vec::new();
    for (sort, kind, turned) in LISTED {
        let mut of_kind = good.clone();
        of_kind.retain(|proposal| (proposal.kind, proposal.turned) == (kind, turned));
        for proposal in random.some(&of_kind, MOST_OF_KIND) {
            cases.push(Case {
                sort,
                graph: Rc::clone(graph),
                root,
                leaves,
                proposal,
                room: room(random, graph, root, &proposal),
            });
        }
    }
    cases
}

/// Leaves that cut a gate in use: those that the rule picks, as a rule.
fn cut(random: &mut Random, graph: &Graph, root: Var) -> Leaves {
    match random.once_in(3) {
        true => windows::cut(random, graph, root),
        false => leaf_rule(graph, root),
    }
}

/// A proposal of any sort.
fn other(random: &mut Random, graph: &Rc<Graph>) -> Case {
    let (root, leaves) = any_window(random, graph);
    let window = match window::check(graph, root, &leaves) {
        Ok(()) => Some(Window::new(graph, root, &leaves)),
        Err(_) => None,
    };
    let proposal = match &window {
        Some(window) => any_proposal(random, graph, window),
        None => noise(random, graph),
    };
    let room = match window.is_some_and(|window| proposal.keeps_rule(&window)) {
        true => room(random, graph, root, &proposal),
        false => (random.between(0, 40), random.between(0, 6)),
    };
    Case {
        sort: "any proposal",
        graph: Rc::clone(graph),
        root,
        leaves,
        proposal,
        room,
    }
}

/// A gate in use over leaves that cut it, or a root and leaves of any sort.
fn any_window(random: &mut Random, graph: &Graph) -> (Var, Leaves) {
    if graph.is_well_formed() && !random.once_in(3) {
        if let Some(root) = windows::good_root(random, graph) {
            return (root, cut(random, graph, root));
        }
    }
    let any = arguments::windows(random, graph);
    random.pick(&any)
}

/// A proposal within the rule, wrong on few patterns or none, with one fault,
/// the root's own gate again, or any numbers.
fn any_proposal(random: &mut Random, graph: &Graph, window: &Window) -> Proposal {
    let small = window.root.0 <= SMALL_ROOT;
    let proposal = match random.between(0, 5) {
        0 if small => proposals::equal(random, window),
        1 if small => proposals::nearly_equal(random, window),
        0..=2 => Some(proposals::good(random, window)),
        3 => Some(proposals::bad(random, window)),
        4 => again(graph, window.root),
        _ => None,
    };
    proposal.unwrap_or_else(|| noise(random, graph))
}

/// The root's own gate, which gains nothing.
fn again(graph: &Graph, root: Var) -> Option<Proposal> {
    let [high, low] = graph.fanins(root)?;
    Some(Proposal::pair(high, low, 0))
}

/// Any numbers: small ones as a rule, and literals of the graph.
fn noise(random: &mut Random, graph: &Graph) -> Proposal {
    let last = graph.inputs.min(64) as u32 + graph.gate_count() as u32;
    let mut word = |most| match random.once_in(10) {
        true => random.word() as u32,
        false => random.word_between(0, most),
    };
    Proposal {
        kind: word(1),
        first: word(2 * last + 3),
        second: word(2 * last + 3),
        turned: word(1),
    }
}

/// Room for the finished graph: exact, longer, too short by a word of the
/// gates or of the outputs.
fn room(random: &mut Random, graph: &Graph, root: Var, proposal: &Proposal) -> (usize, usize) {
    let after = finished(graph, root, proposal);
    let (words, results) = (after.gates.len(), after.outputs.len());
    match random.between(0, 5) {
        0 => (words.saturating_sub(1), results),
        1 => (words, results.saturating_sub(1)),
        2 => (words + random.between(1, 9), results + random.between(1, 9)),
        _ => (words, results),
    }
}

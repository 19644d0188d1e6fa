//! Sampled arguments: good as a rule, and bad of every sort.

use super::notation;
use model::window::{self, Window};
use model::{Graph, Leaves, Proposal, Var};
use samples::graphs::{self, Size};
use samples::{edges, proposals, windows, Random};

pub type Maker = fn(&mut Random) -> Graph;

/// Wide enough that the leaf rule has to choose.
pub fn wide(random: &mut Random) -> Graph {
    graphs::exact(random, size(16, 40))
}

/// Large enough for six leaves, and that gates are left after a replacement.
pub fn middling(random: &mut Random) -> Graph {
    graphs::redundant(random, size(8, 14))
}

/// Small enough that the prover can try every candidate of a gate.
pub fn small(random: &mut Random) -> Graph {
    graphs::redundant(random, size(3, 6))
}

/// Small enough that it can do so for every gate, again and again.
pub fn tiny(random: &mut Random) -> Graph {
    graphs::redundant(random, size(2, 5))
}

fn size(inputs: usize, gates: usize) -> Size {
    let outputs = 2;
    Size {
        inputs,
        gates,
        outputs,
    }
}

/// What a lent place holds beforehand, as the definitions have it.
pub const UNWRITTEN: u8 = 99;

pub fn lent_words(places: usize) -> Vec<u32> {
    vec![u32::from(UNWRITTEN); places]
}

/// Mostly as many places as needed or some more, at times one too few.
pub fn places(random: &mut Random, need: usize) -> usize {
    match random.between(0, 5) {
        0 => need.saturating_sub(1),
        _ => need + random.between(0, 2),
    }
}

/// How many words are lent for a graph.
pub struct Room {
    pub gates: usize,
    pub outputs: usize,
}

impl Room {
    pub fn for_graph(random: &mut Random, graph: &Graph) -> Room {
        Room {
            gates: places(random, graph.gates.len()),
            outputs: places(random, graph.outputs.len()),
        }
    }

    /// Whether the gates find too few words, and whether the outputs do.
    pub fn lacks(&self, graph: &Graph) -> [bool; 2] {
        [
            self.gates < graph.gates.len(),
            self.outputs < graph.outputs.len(),
        ]
    }

    pub fn lent(&self) -> [Vec<u32>; 2] {
        [lent_words(self.gates), lent_words(self.outputs)]
    }

    pub fn notation(&self) -> String {
        notation::buffers(self.gates, self.outputs)
    }
}

/// A graph that is well formed as a rule.
pub fn any_graph(random: &mut Random, make: Maker) -> Graph {
    let graph = make(random);
    if !random.once_in(8) {
        return graph;
    }
    let bad = edges::with_fault(random, graph);
    // The prover looks at every word, so they stay few.
    if bad.gates.len() > 100 {
        return any_graph(random, make);
    }
    bad
}

/// What the calls on a window share.
pub struct Site {
    pub graph: Graph,
    pub root: Var,
    pub leaves: Leaves,
}

impl Site {
    /// A graph, a root and leaves that cut it, or one of the three at times
    /// bad.
    pub fn draw(random: &mut Random, make: Maker) -> Site {
        let graph = any_graph(random, make);
        let root = match graph.is_well_formed() {
            true => windows::good_root(random, &graph),
            false => Some(Var(random.word_between(0, 9))),
        };
        let Some(root) = root else {
            return Site::draw(random, make);
        };
        let leaves = any_leaves(random, &graph, root);
        let root = match graph.is_well_formed() && random.once_in(12) {
            true => windows::bad_root(random, &graph),
            false => root,
        };
        Site {
            graph,
            root,
            leaves,
        }
    }

    /// The window, unless it is refused.
    pub fn window(&self) -> Option<Window> {
        let checked = window::check(&self.graph, self.root, &self.leaves);
        let window = || Window::new(&self.graph, self.root, &self.leaves);
        checked.is_ok().then(window)
    }

    pub fn notation(&self) -> Vec<String> {
        let root = self.root.0.to_string();
        vec![
            notation::graph(&self.graph),
            root,
            notation::leaves(&self.leaves),
        ]
    }
}

/// Leaves that cut the root as a rule; no rule tells those of a bad graph.
fn any_leaves(random: &mut Random, graph: &Graph, root: Var) -> Leaves {
    match random.between(0, 7) {
        0 => windows::bad_leaves(random, root),
        1 => windows::good_leaves(random, root),
        _ if graph.is_well_formed() => windows::cut(random, graph, root),
        _ => Leaves::default(),
    }
}

/// A replacement with the root's table as a rule, or any within or against the
/// rule. Where the window is refused, so is every proposal.
pub fn any_proposal(random: &mut Random, site: &Site) -> Proposal {
    let constant = Proposal::single(Var(0).lit(false));
    let Some(window) = site.window() else {
        return constant;
    };
    match random.between(0, 8) {
        0 => Proposal::single(site.root.lit(random.coin())),
        1 | 2 => proposals::bad(random, &window),
        3 => proposals::good(random, &window),
        4 => proposals::nearly_equal(random, &window).unwrap_or(constant),
        _ => proposals::equal(random, &window).unwrap_or(constant),
    }
}

//! Covered are variable 0, each leaf, and each gate whose two fanin variables
//! are covered. A covered variable's local function takes the leaves as free
//! inputs; bit i of its table is the value where leaf j has bit j of i.

use crate::{Graph, Leaves, Lit, Refusal, Var};

/// The tables of the leaves themselves.
const LEAF_PATTERNS: [u64; 6] = [
    0xAAAA_AAAA_AAAA_AAAA,
    0xCCCC_CCCC_CCCC_CCCC,
    0xF0F0_F0F0_F0F0_F0F0,
    0xFF00_FF00_FF00_FF00,
    0xFFFF_0000_FFFF_0000,
    0xFFFF_FFFF_0000_0000,
];

/// The gates up to the root, lowest first.
fn gates_up_to(graph: &Graph, root: Var) -> impl Iterator<Item = (Var, Lit, Lit)> + '_ {
    graph
        .numbered_gates()
        .take_while(move |gate| gate.0 <= root)
}

/// Which variables up to the root are covered.
pub fn covered(graph: &Graph, root: Var, leaves: &Leaves) -> Vec<bool> {
    let mut covered = vec![false; root.index() + 1];
    covered[0] = true;
    for leaf in leaves.vars() {
        covered[leaf.index()] = true;
    }
    for (gate, high, low) in gates_up_to(graph, root) {
        covered[gate.index()] |= covered[high.var().index()] && covered[low.var().index()];
    }
    covered
}

/// Refusals 7, 9, 10 and 11, shared by all calls on a window.
pub fn check(graph: &Graph, root: Var, leaves: &Leaves) -> Result<(), Refusal> {
    graph.check()?;
    graph.check_root(root)?;
    leaves.check(root)?;
    Refusal::NotACut.unless(covered(graph, root, leaves)[root.index()])
}

/// The root's value where leaf j has bit j of the pattern. A leaf keeps its
/// free value even where its fanins are covered.
fn local_value(graph: &Graph, root: Var, leaves: &Leaves, pattern: u64) -> bool {
    let mut values = vec![false; root.index() + 1];
    for (j, leaf) in leaves.vars().enumerate() {
        values[leaf.index()] = (pattern >> j) & 1 == 1;
    }
    let value = |values: &[bool], lit: Lit| values[lit.var().index()] != lit.is_complemented();
    for (gate, high, low) in gates_up_to(graph, root) {
        if !leaves.has(gate) {
            values[gate.index()] = value(&values, high) && value(&values, low);
        }
    }
    values[root.index()]
}

/// The definition of a table: each of the 64 patterns by itself.
fn table_by_patterns(graph: &Graph, root: Var, leaves: &Leaves) -> u64 {
    (0..64)
        .map(|pattern| u64::from(local_value(graph, root, leaves, pattern)) << pattern)
        .sum()
}

/// The table of a root over the leaves that cut it.
pub fn table(graph: &Graph, root: Var, leaves: &Leaves) -> Result<u64, Refusal> {
    check(graph, root, leaves)?;
    Ok(table_by_patterns(graph, root, leaves))
}

/// A root with the tables of all covered variables up to it, built by whole
/// words. Where a variable is not covered its table means nothing.
pub struct Window {
    pub root: Var,
    covered: Vec<bool>,
    tables: Vec<u64>,
}

impl Window {
    pub fn new(graph: &Graph, root: Var, leaves: &Leaves) -> Window {
        let mut window = Window {
            root,
            covered: covered(graph, root, leaves),
            tables: vec![0; root.index() + 1],
        };
        for (leaf, pattern) in leaves.vars().zip(LEAF_PATTERNS) {
            window.tables[leaf.index()] = pattern;
        }
        for (gate, high, low) in gates_up_to(graph, root) {
            if !leaves.has(gate) {
                window.tables[gate.index()] = window.table_of(high) & window.table_of(low);
            }
        }
        window
    }

    /// Whether the leaves cut the root: it is covered.
    pub fn cuts_root(&self) -> bool {
        self.covered[self.root.index()]
    }

    /// A divisor is a covered variable below the root, 0 included.
    pub fn is_divisor(&self, var: Var) -> bool {
        var < self.root && self.covered[var.index()]
    }

    pub fn table_of(&self, lit: Lit) -> u64 {
        let table = self.tables[lit.var().index()];
        if lit.is_complemented() {
            !table
        } else {
            table
        }
    }

    pub fn root_table(&self) -> u64 {
        self.table_of(self.root.lit(false))
    }
}

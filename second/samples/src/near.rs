//! Proposals that are wrong on one pattern of the 64 and right on all others.

use crate::graphs::{self, Builder, Size};
use crate::Random;
use model::leaves::MOST_LEAVES;
use model::{Graph, Leaves, Lit, Proposal, Var};

/// A graph, a gate over six leaves and a proposal for it that is wrong on this
/// pattern alone. The gate is what is proposed, less the product of the leaves
/// that holds under the pattern. That product goes, so there is a gain.
pub fn wrong_on(random: &mut Random, pattern: u32) -> (Graph, Var, Leaves, Proposal) {
    let mut builder = base(random);
    let leaves = six_leaves(random, builder.graph.last_var());
    let mut holding = holding(&leaves, pattern);
    let product = holding.clone().into_iter();
    let product = product.reduce(|one, other| builder.and(one, other));
    for _ in 0..random.between(0, 4) {
        let both = builder.and(random.pick(&holding), random.pick(&holding));
        holding.push(both);
    }
    let (proposal, proposed) = propose(random, &mut builder, &holding);
    let less = product.expect("there are leaves").turned(true);
    let root = builder.and(proposed, less);
    let above = builder.and(root.turned(random.coin()), random.pick(&holding));
    let outputs = [root, above].map(|lit| lit.turned(random.coin()).0);
    builder.graph.outputs = outputs.to_vec();
    (builder.graph, root.var(), leaves, proposal)
}

/// Something to take leaves from.
fn base(random: &mut Random) -> Builder {
    let size = Size {
        inputs: random.between(6, 9),
        gates: random.between(0, 8),
        outputs: 0,
    };
    let graph = graphs::exact(random, size);
    Builder { graph }
}

fn six_leaves(random: &mut Random, last: Var) -> Leaves {
    let vars: Vec<Var> = (1..=last.0).map(Var).collect();
    let leaves = Leaves::of(random.some(&vars, MOST_LEAVES));
    leaves.expect("six leaves fit")
}

/// Of each leaf the literal that holds under the pattern.
fn holding(leaves: &Leaves, pattern: u32) -> Vec<Lit> {
    let numbered = leaves.vars().enumerate();
    let holding = numbered.map(|(j, leaf)| leaf.lit((pattern >> j) & 1 == 0));
    holding.collect()
}

/// A proposal that holds under the pattern, and a literal that has its table.
fn propose(random: &mut Random, builder: &mut Builder, holding: &[Lit]) -> (Proposal, Lit) {
    let mut two = random.some(holding, 2);
    two.sort_unstable();
    let (high, low) = (two[1], two[0]);
    match random.between(0, 2) {
        0 => (Proposal::single(high), high),
        1 => (Proposal::pair(high, low, 0), builder.and(high, low)),
        _ => {
            let high = high.turned(true);
            let proposed = builder.and(high, low).turned(true);
            (Proposal::pair(high, low, 1), proposed)
        }
    }
}

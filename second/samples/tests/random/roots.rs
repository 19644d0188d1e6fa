//! Random graphs with a gate in use each, for tests that ask about one.

use model::{Graph, Var};
use samples::{windows, Random};

/// Draws graphs and hands on each that has a gate in use, with such a gate.
pub fn each(
    seed: u64,
    times: usize,
    draw: fn(&mut Random) -> Graph,
    mut check: impl FnMut(&mut Random, &Graph, Var),
) {
    let mut random = Random::new(seed);
    for _ in 0..times {
        let graph = draw(&mut random);
        if let Some(root) = windows::good_root(&mut random, &graph) {
            check(&mut random, &graph, root);
        }
    }
}

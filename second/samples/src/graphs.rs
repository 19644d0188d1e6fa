//! Random well formed graphs. Fanins are mostly drawn from nearby variables,
//! so that windows cover much, and outputs mostly from late ones, so that most
//! gates are in use.

use crate::Random;
use model::graph::{MOST_GATES, MOST_INPUTS, MOST_OUTPUTS};
use model::{Graph, Lit, Var};

/// How large a random graph may be.
#[derive(Clone, Copy, Debug)]
pub struct Size {
    pub inputs: usize,
    pub gates: usize,
    pub outputs: usize,
}

pub const SMALL: Size = Size {
    inputs: 6,
    gates: 12,
    outputs: 4,
};

pub const MODEST: Size = Size {
    inputs: 8,
    gates: 32,
    outputs: 6,
};

pub const MID: Size = Size {
    inputs: 16,
    gates: 96,
    outputs: 12,
};

pub const BIG: Size = Size {
    inputs: MOST_INPUTS as usize,
    gates: MOST_GATES,
    outputs: MOST_OUTPUTS,
};

/// A graph that grows gate by gate.
pub(crate) struct Builder {
    pub(crate) graph: Graph,
}

impl Builder {
    fn new(inputs: usize) -> Builder {
        Builder {
            graph: Graph {
                inputs: inputs as u64,
                ..Graph::default()
            },
        }
    }

    pub(crate) fn and(&mut self, one: Lit, other: Lit) -> Lit {
        self.graph
            .gates
            .extend([one.max(other).0, one.min(other).0]);
        self.graph.last_var().lit(false)
    }

    /// A literal on one of the last variables, as many as the reach.
    fn near(&self, random: &mut Random, reach: usize) -> Lit {
        let last = self.graph.last_var().0;
        let lowest = last.saturating_sub(reach as u32);
        // The constant comes up once in a while only.
        let lowest = lowest.max(u32::from(last > 0 && !random.once_in(30)));
        Var(random.word_between(lowest, last)).lit(random.coin())
    }

    /// Mostly a near literal, at times any.
    fn any(&self, random: &mut Random, reach: usize) -> Lit {
        let reach = if random.once_in(4) { usize::MAX } else { reach };
        self.near(random, reach.min(MOST_GATES + MOST_INPUTS as usize))
    }

    fn with_outputs(mut self, random: &mut Random, outputs: usize) -> Graph {
        let reach = 2 * outputs;
        let literals = (0..outputs).map(|_| self.any(random, reach).0);
        self.graph.outputs = literals.collect();
        self.graph
    }
}

/// A graph of exactly this size.
pub fn exact(random: &mut Random, size: Size) -> Graph {
    let mut builder = Builder::new(size.inputs);
    let reach = random.pick(&[3, 8, 24, 200]);
    for _ in 0..size.gates {
        let (one, other) = (builder.any(random, reach), builder.any(random, reach));
        builder.and(one, other);
    }
    builder.with_outputs(random, size.outputs)
}

/// A graph of exactly this size in which each gate draws on the variable just
/// before it and on one close by or among the first few, so that six leaves
/// are enough however far the leaf rule goes down.
pub fn chain(random: &mut Random, size: Size) -> Graph {
    let mut builder = Builder::new(size.inputs);
    for _ in 0..size.gates {
        let before = builder.near(random, 0);
        let other = match random.once_in(3) {
            true => Var(random.word_between(0, before.var().0.min(3))).lit(random.coin()),
            false => builder.near(random, 2),
        };
        builder.and(before, other);
    }
    builder.with_outputs(random, size.outputs)
}

/// Any size up to this one, in its upper half as a rule.
fn up_to(random: &mut Random, most: Size) -> Size {
    let full = !random.once_in(4);
    let mut draw = |most: usize| random.between(if full { most / 2 } else { 0 }, most);
    Size {
        inputs: draw(most.inputs),
        gates: draw(most.gates),
        outputs: draw(most.outputs),
    }
}

pub fn small(random: &mut Random) -> Graph {
    let size = up_to(random, SMALL);
    exact(random, size)
}

pub fn mid(random: &mut Random) -> Graph {
    let size = up_to(random, MID);
    exact(random, size)
}

pub fn big(random: &mut Random) -> Graph {
    let size = up_to(random, BIG);
    exact(random, size)
}

/// At most six inputs, so that they cover the whole graph.
pub fn covered(random: &mut Random, gates: usize) -> Graph {
    let size = Size {
        inputs: random.between(0, 6),
        gates,
        outputs: random.between(1, 8),
    };
    exact(random, size)
}

/// A graph that says much twice, so that replacements exist, and that keeps
/// its functions apart by exclusive pieces, so that not all of it goes.
pub fn redundant(random: &mut Random, most: Size) -> Graph {
    let size = up_to(random, most);
    let mut builder = Builder::new(size.inputs);
    while builder.graph.gate_count() + 3 <= size.gates {
        let [x, y, z] = [0; 3].map(|_| builder.any(random, 16));
        match random.between(0, 3) {
            0 => disguise(random, &mut builder, x, y),
            1 => choose(&mut builder, x, y, z),
            2 => choose(&mut builder, x, y, y.turned(true)),
            _ => builder.and(x, y),
        };
    }
    builder.with_outputs(random, size.outputs)
}

/// Three gates for y where x holds and z where it does not, complemented.
fn choose(builder: &mut Builder, x: Lit, y: Lit, z: Lit) -> Lit {
    let (then, otherwise) = (builder.and(x, y), builder.and(x.turned(true), z));
    builder.and(then.turned(true), otherwise.turned(true))
}

/// Up to three gates for what one or none could do.
fn disguise(random: &mut Random, builder: &mut Builder, x: Lit, y: Lit) -> Lit {
    match random.between(0, 5) {
        0 => choose(builder, y, x, x),
        1 => choose(builder, x, y, x),
        sort => {
            let pair = builder.and(x, y);
            match sort {
                2 => builder.and(x, y),
                3 => builder.and(pair, x),
                4 => builder.and(pair, pair),
                _ => builder.and(pair, Var(0).lit(true)),
            }
        }
    }
}

/// Any of the sorts above but the big one.
pub fn any(random: &mut Random) -> Graph {
    match random.between(0, 4) {
        0 => small(random),
        1 => mid(random),
        2 => redundant(random, SMALL),
        3 => redundant(random, MID),
        _ => {
            let gates = random.between(0, 40);
            covered(random, gates)
        }
    }
}

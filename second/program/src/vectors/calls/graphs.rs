//! Calls on a whole graph: evaluating and the run.

use super::{Call, Told};
use crate::vectors::arguments::{any_graph, lent_words, places, small, tiny, Room};
use crate::vectors::notation;
use model::{evaluate, run, Graph};
use samples::{assignments, Random};

pub struct Evaluate {
    pub graph: Graph,
    pub values: Vec<u32>,
    pub room: usize,
}

impl Call for Evaluate {
    const NAME: &'static str = "evaluate_call";

    fn draw(random: &mut Random) -> Evaluate {
        let graph = any_graph(random, small);
        // Only a bad graph has more inputs.
        let inputs = graph.inputs.min(9);
        let values = match random.once_in(4) {
            true => assignments::bad(random, inputs),
            false => assignments::good(random, inputs),
        };
        let room = places(random, graph.outputs.len());
        Evaluate {
            graph,
            values,
            room,
        }
    }

    fn arguments(&self) -> Vec<String> {
        vec![
            notation::graph(&self.graph),
            notation::list(&self.values),
            self.room.to_string(),
        ]
    }

    fn told(&self) -> Told {
        let mut results = lent_words(self.room);
        let result = evaluate(&self.graph, &self.values, &mut results);
        let count = result.map(|()| [self.graph.outputs.len() as u64]);
        Told::new(count, &[&results])
    }
}

pub struct Run {
    pub graph: Graph,
    pub result: Room,
    pub work: Room,
}

/// The most inputs and gates in use of a graph to run, since the prover lists
/// at each gate in every pass.
const MOST_IN_USE: usize = 5;

fn in_use(graph: &Graph) -> usize {
    match graph.is_well_formed() {
        true => graph.inputs as usize + graph.gates_in_use(),
        false => 0,
    }
}

impl Call for Run {
    const NAME: &'static str = "run_call";

    fn draw(random: &mut Random) -> Run {
        let graph = any_graph(random, tiny);
        if in_use(&graph) > MOST_IN_USE {
            return Run::draw(random);
        }
        let result = Room::for_graph(random, &graph);
        let work = Room::for_graph(random, &graph);
        Run {
            graph,
            result,
            work,
        }
    }

    fn arguments(&self) -> Vec<String> {
        vec![
            notation::graph(&self.graph),
            self.result.notation(),
            self.work.notation(),
        ]
    }

    fn told(&self) -> Told {
        let [mut gates, mut outputs] = self.result.lent();
        let [mut work_gates, mut work_outputs] = self.work.lent();
        let result = run(
            &self.graph,
            &mut gates,
            &mut outputs,
            &mut work_gates,
            &mut work_outputs,
        );
        let counts = result.map(|(gates, made)| [gates as u64, made as u64]);
        Told::new(counts, &[&gates, &outputs, &work_gates, &work_outputs])
    }
}

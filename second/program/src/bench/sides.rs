//! What is timed, on the proved side and on this program's.

use model::leaves::leaf_rule;
use model::listing::Search;
use model::reach::Reach;
use model::window::Window;
use model::{Graph, Leaves, Proposal, Refusal, Var};
use samples::graphs::{self, BIG};
use samples::{assignments, texts, windows, Random};
use std::hint::black_box;

const SEED: u64 = 1;

/// What both sides are given: a graph at every limit, its text, an assignment,
/// the gates in use with the leaves that the rule picks, and for some of them
/// a good proposal, and one that gains nothing.
pub struct Given {
    graph: Graph,
    text: Vec<u8>,
    assignment: Vec<u32>,
    windows: Vec<(Var, Leaves)>,
    good: Vec<(Var, Leaves, Proposal)>,
    gainless: Vec<(Var, Leaves, Proposal)>,
}

impl Given {
    pub fn new() -> Given {
        let mut random = Random::new(SEED);
        let graph = graphs::exact(&mut random, BIG);
        let in_use = windows::gates_in_use(&graph).into_iter();
        let windows: Vec<_> = in_use.map(|gate| (gate, leaf_rule(&graph, gate))).collect();
        Given {
            text: texts::plain(&graph),
            assignment: assignments::good(&mut random, graph.inputs),
            good: proposed(&windows, |root, leaves| first_good(&graph, root, leaves)),
            gainless: proposed(&windows, |root, leaves| own_gate(&graph, root, leaves)),
            windows,
            graph,
        }
    }

    pub fn title(&self) -> String {
        let (gates, in_use) = (self.graph.gate_count(), self.windows.len());
        let length = self.text.len();
        let (good, gainless) = (self.good.len(), self.gainless.len());
        format!(
            "{gates} gates, {in_use} in use, a text of {length} bytes; \
             {good} good proposals, {gainless} that gain nothing"
        )
    }
}

/// A proposal at each root that has one.
fn proposed(
    windows: &[(Var, Leaves)],
    proposal: impl Fn(Var, &Leaves) -> Option<Proposal>,
) -> Vec<(Var, Leaves, Proposal)> {
    let with = |&(root, leaves): &(Var, Leaves)| Some((root, leaves, proposal(root, &leaves)?));
    windows.iter().filter_map(with).collect()
}

fn first_good(graph: &Graph, root: Var, leaves: &Leaves) -> Option<Proposal> {
    let reach = Reach::new(graph);
    let search = Search::new(graph, &reach, root, leaves);
    let first = search.good().next();
    first.map(|record| record.proposal())
}

/// The root's own gate as a proposal, where it is refused for its gain alone.
fn own_gate(graph: &Graph, root: Var, leaves: &Leaves) -> Option<Proposal> {
    let [high, low] = graph.fanins(root)?;
    let proposal = Proposal::pair(high, low, 0);
    let answer = model::apply(graph, root, leaves, &proposal, &mut [], &mut []);
    (answer == Err(Refusal::NoGain)).then_some(proposal)
}

/// One side's lent memory, not cleared between calls.
#[derive(PartialEq)]
pub struct Lent {
    gates: Vec<u32>,
    outputs: Vec<u32>,
    counts: [usize; 3],
    bytes: Vec<u8>,
    length: usize,
    values: Vec<u32>,
    leaves: Vec<Leaves>,
    tables: Vec<u64>,
    /// The counts of a finished graph, which a refusal leaves alone.
    finished: [usize; 2],
}

impl Lent {
    pub fn new(given: &Given) -> Lent {
        Lent {
            gates: vec![0; 2048],
            outputs: vec![0; 64],
            counts: [0; 3],
            bytes: vec![0; 65_535],
            length: 0,
            values: vec![0; 64],
            leaves: vec![Leaves::default(); given.windows.len()],
            tables: vec![0; given.windows.len()],
            finished: [0; 2],
        }
    }

    pub fn read_proved(&mut self, given: &Given) {
        let (gates, outputs) = (&mut self.gates, &mut self.outputs);
        let number = proved::read(black_box(&given.text), gates, outputs, &mut self.counts);
        assert_eq!(number, 0);
    }

    pub fn read_second(&mut self, given: &Given) {
        let (gates, outputs) = (&mut self.gates, &mut self.outputs);
        let answer = model::read(black_box(&given.text), gates, outputs);
        let (inputs, gates, outputs) = answer.expect("the text is read");
        self.counts = [inputs as usize, gates, outputs];
    }

    pub fn write_proved(&mut self, given: &Given) {
        let graph = black_box(&given.graph);
        let number = proved::write(graph, &mut self.bytes, &mut self.length);
        assert_eq!(number, 0);
    }

    pub fn write_second(&mut self, given: &Given) {
        let answer = model::write(black_box(&given.graph), &mut self.bytes);
        self.length = answer.expect("the graph is written");
    }

    pub fn evaluate_proved(&mut self, given: &Given) {
        let graph = black_box(&given.graph);
        let mut count = 0;
        let number = proved::evaluate(graph, &given.assignment, &mut self.values, &mut count);
        assert_eq!((number, count), (0, graph.outputs.len()));
    }

    pub fn evaluate_second(&mut self, given: &Given) {
        let graph = black_box(&given.graph);
        let answer = model::evaluate(graph, &given.assignment, &mut self.values);
        answer.expect("the graph is evaluated");
    }

    pub fn pick_proved(&mut self, given: &Given) {
        for ((root, _), leaves) in given.windows.iter().zip(&mut self.leaves) {
            let number = proved::pick(black_box(&given.graph), root.0, leaves);
            assert_eq!(number, 0);
        }
    }

    pub fn pick_second(&mut self, given: &Given) {
        for ((root, _), leaves) in given.windows.iter().zip(&mut self.leaves) {
            let answer = model::pick_leaves(black_box(&given.graph), *root);
            *leaves = answer.expect("a gate in use has leaves");
        }
    }

    pub fn table_proved(&mut self, given: &Given) {
        for ((root, leaves), table) in given.windows.iter().zip(&mut self.tables) {
            let number = proved::table(black_box(&given.graph), root.0, leaves, table);
            assert_eq!(number, 0);
        }
    }

    pub fn table_second(&mut self, given: &Given) {
        for ((root, leaves), table) in given.windows.iter().zip(&mut self.tables) {
            let graph = black_box(&given.graph);
            let answer = table_by_words(graph, *root, leaves);
            *table = answer.expect("the leaves cut the root");
        }
    }

    pub fn apply_proved(&mut self, given: &Given) {
        for proposed in &given.good {
            assert_eq!(self.applied_proved(given, proposed), 0);
        }
    }

    pub fn apply_second(&mut self, given: &Given) {
        for proposed in &given.good {
            let answer = self.applied_second(given, proposed);
            let (gates, outputs) = answer.expect("the proposal is good");
            self.finished = [gates, outputs];
        }
    }

    pub fn refuse_proved(&mut self, given: &Given) {
        for proposed in &given.gainless {
            let number = self.applied_proved(given, proposed);
            assert_eq!(number, Refusal::NoGain.number());
        }
    }

    pub fn refuse_second(&mut self, given: &Given) {
        for proposed in &given.gainless {
            let answer = self.applied_second(given, proposed);
            assert_eq!(answer, Err(Refusal::NoGain));
        }
    }

    fn applied_proved(
        &mut self,
        given: &Given,
        (root, leaves, proposal): &(Var, Leaves, Proposal),
    ) -> u32 {
        let graph = black_box(&given.graph);
        let (words, results) = (&mut self.gates, &mut self.outputs);
        let counts = &mut self.finished;
        proved::apply(graph, root.0, leaves, proposal, words, results, counts)
    }

    fn applied_second(
        &mut self,
        given: &Given,
        (root, leaves, proposal): &(Var, Leaves, Proposal),
    ) -> Result<(usize, usize), Refusal> {
        let graph = black_box(&given.graph);
        let (words, results) = (&mut self.gates, &mut self.outputs);
        model::apply(graph, *root, leaves, proposal, words, results)
    }
}

/// By whole words, as the lister does, and not pattern by pattern. What is
/// covered is found once, for the test and for the table.
fn table_by_words(graph: &Graph, root: Var, leaves: &Leaves) -> Result<u64, Refusal> {
    graph.check()?;
    graph.check_root(root)?;
    leaves.check(root)?;
    let window = Window::new(graph, root, leaves);
    Refusal::NotACut.unless(window.cuts_root())?;
    Ok(window.root_table())
}

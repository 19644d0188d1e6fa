//! The graph: variable 0 is the constant false, then come the inputs, then
//! the gates. A gate is the AND of two literals, held larger first, each below
//! twice the gate's own variable. A gate is in use if some output reaches it.

use crate::Refusal;

pub const MOST_INPUTS: u64 = 64;
pub const MOST_OUTPUTS: usize = 64;
pub const MOST_GATES: usize = 1024;

/// The number of a variable.
#[derive(Clone, Copy, Debug, PartialEq, Eq, PartialOrd, Ord)]
pub struct Var(pub u32);

/// A variable or its complement.
#[derive(Clone, Copy, Debug, PartialEq, Eq, PartialOrd, Ord)]
pub struct Lit(pub u32);

impl Var {
    pub fn index(self) -> usize {
        self.0 as usize
    }

    /// The variable itself, complemented or not.
    pub fn lit(self, complemented: bool) -> Lit {
        Lit(2 * self.0 + u32::from(complemented))
    }
}

impl Lit {
    pub fn var(self) -> Var {
        Var(self.0 / 2)
    }

    pub fn is_complemented(self) -> bool {
        self.0 % 2 == 1
    }

    /// The literal, complemented once more where asked.
    pub fn turned(self, turn: bool) -> Lit {
        Lit(self.0 ^ u32::from(turn))
    }
}

/// A graph as it is lent: until it is checked its words may be anything.
#[derive(Clone, Debug, Default, PartialEq, Eq)]
pub struct Graph {
    pub inputs: u64,
    /// Two literals a gate, larger first.
    pub gates: Vec<u32>,
    pub outputs: Vec<u32>,
}

impl Graph {
    pub fn check(&self) -> Result<(), Refusal> {
        Refusal::BadGraph.unless(self.is_well_formed())
    }

    /// The limits come first: only then is the input count safe to add to.
    pub fn is_well_formed(&self) -> bool {
        self.inputs <= MOST_INPUTS
            && self.outputs.len() <= MOST_OUTPUTS
            && self.gates.chunks_exact(2).remainder().is_empty()
            && self.gate_count() <= MOST_GATES
            && self
                .numbered_gates()
                .all(|(gate, high, low)| low <= high && high < gate.lit(false))
            && self
                .outputs
                .iter()
                .all(|&output| Lit(output) <= self.last_var().lit(true))
    }

    pub fn gate_count(&self) -> usize {
        self.gates.len() / 2
    }

    /// The last input; the gates follow it.
    fn last_input(&self) -> u32 {
        self.inputs as u32
    }

    pub fn last_var(&self) -> Var {
        Var(self.last_input() + self.gate_count() as u32)
    }

    /// Each gate's variable with its two fanins, lowest gate first.
    pub fn numbered_gates(&self) -> impl DoubleEndedIterator<Item = (Var, Lit, Lit)> + '_ {
        let first = self.last_input() + 1;
        let pairs = self.gates.chunks_exact(2).enumerate();
        pairs.map(move |(k, pair)| (Var(first + k as u32), Lit(pair[0]), Lit(pair[1])))
    }

    /// The place of a gate's two words; none for other variables.
    pub fn place(&self, var: Var) -> Option<usize> {
        let is_gate = self.last_input() < var.0 && var <= self.last_var();
        is_gate.then(|| 2 * (var.0 - self.last_input() - 1) as usize)
    }

    /// A gate's two fanins; none for other variables.
    pub fn fanins(&self, var: Var) -> Option<[Lit; 2]> {
        let place = self.place(var)?;
        Some([Lit(self.gates[place]), Lit(self.gates[place + 1])])
    }

    /// One mark a variable: whether some output reaches it.
    pub fn marks(&self) -> Vec<bool> {
        let mut marks = vec![false; self.last_var().index() + 1];
        for &output in &self.outputs {
            marks[Lit(output).var().index()] = true;
        }
        for (gate, high, low) in self.numbered_gates().rev() {
            if marks[gate.index()] {
                marks[high.var().index()] = true;
                marks[low.var().index()] = true;
            }
        }
        marks
    }

    /// R, the number of gates in use.
    pub fn gates_in_use(&self) -> usize {
        let first_gate = self.last_input() as usize + 1;
        let marks = self.marks();
        marks[first_gate..].iter().filter(|&&mark| mark).count()
    }

    pub fn check_root(&self, root: Var) -> Result<(), Refusal> {
        let in_use = self.place(root).is_some() && self.marks()[root.index()];
        Refusal::BadRoot.unless(in_use)
    }

    /// Without the gates not in use. The rest keep their order and are
    /// renumbered; inputs and output order stay.
    pub fn dropped(&self) -> Graph {
        let marks = self.marks();
        let mut renamed: Vec<Var> = (0..=self.last_var().0).map(Var).collect();
        let rename =
            |renamed: &[Var], lit: Lit| renamed[lit.var().index()].lit(lit.is_complemented()).0;
        let mut kept = Graph {
            inputs: self.inputs,
            ..Graph::default()
        };
        for (gate, high, low) in self.numbered_gates() {
            if marks[gate.index()] {
                kept.gates.push(rename(&renamed, high));
                kept.gates.push(rename(&renamed, low));
                renamed[gate.index()] = kept.last_var();
            }
        }
        let outputs = self.outputs.iter();
        kept.outputs = outputs.map(|&o| rename(&renamed, Lit(o))).collect();
        kept
    }

    /// Copies both lists to lent places; answers how many gates and outputs.
    pub fn store(&self, gates: &mut [u32], outputs: &mut [u32]) -> Result<(usize, usize), Refusal> {
        let fits = self.gates.len() <= gates.len() && self.outputs.len() <= outputs.len();
        Refusal::NoRoom.unless(fits)?;
        gates[..self.gates.len()].copy_from_slice(&self.gates);
        outputs[..self.outputs.len()].copy_from_slice(&self.outputs);
        Ok((self.gate_count(), self.outputs.len()))
    }
}

/// The outputs' values where the inputs have the given ones, a word each.
pub fn evaluate(graph: &Graph, values: &[u32], results: &mut [u32]) -> Result<(), Refusal> {
    graph.check()?;
    let is_assignment =
        values.len() as u64 == graph.inputs && values.iter().all(|&value| value <= 1);
    Refusal::BadAssignment.unless(is_assignment)?;
    Refusal::NoRoom.unless(graph.outputs.len() <= results.len())?;

    let mut known = vec![0];
    known.extend_from_slice(values);
    let value =
        |known: &[u32], lit: Lit| known[lit.var().index()] ^ u32::from(lit.is_complemented());
    for (_, high, low) in graph.numbered_gates() {
        known.push(value(&known, high) & value(&known, low));
    }
    for (result, &output) in results.iter_mut().zip(&graph.outputs) {
        *result = value(&known, Lit(output));
    }
    Ok(())
}

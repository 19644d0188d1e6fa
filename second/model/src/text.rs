//! The text: header `aag M I L O A`, one line an input, an output and a gate,
//! then a rest that is skipped if it is empty or starts with `i`, `o` or `c`.
//! Of a misshapen line and a broken rule the earlier line decides.

use crate::graph::{Lit, Var, MOST_GATES, MOST_INPUTS, MOST_OUTPUTS};
use crate::{Graph, Refusal};

pub const MOST_BYTES: usize = 65_535;

/// Reads on from its place in the lent text.
struct Reader<'a> {
    text: &'a [u8],
    place: usize,
}

impl Reader<'_> {
    fn peek(&self) -> Option<u8> {
        self.text.get(self.place).copied()
    }

    /// Passes the wanted bytes; none if others stand there.
    fn pass(&mut self, wanted: &[u8]) -> Option<()> {
        self.text[self.place..].starts_with(wanted).then(|| {
            self.place += wanted.len();
        })
    }

    fn digit(&mut self) -> Option<u64> {
        let byte = self.peek().filter(u8::is_ascii_digit)?;
        self.place += 1;
        Some(u64::from(byte - b'0'))
    }

    /// A number ends after a leading zero, so that a digit behind it is out of
    /// shape. The bound is tested at each digit, so that nothing wraps.
    fn number(&mut self) -> Option<u32> {
        let mut number = self.digit()?;
        while number != 0 {
            let Some(digit) = self.digit() else { break };
            number = 10 * number + digit;
            if number > u64::from(u32::MAX) {
                return None;
            }
        }
        Some(number as u32)
    }

    /// A line of exactly so many numbers, one space between.
    fn line<const COUNT: usize>(&mut self) -> Option<[u32; COUNT]> {
        let mut numbers = [0; COUNT];
        for (k, number) in numbers.iter_mut().enumerate() {
            if k > 0 {
                self.pass(b" ")?;
            }
            *number = self.number()?;
        }
        self.pass(b"\n")?;
        Some(numbers)
    }
}

struct Header {
    inputs: u32,
    outputs: u32,
    gates: u32,
}

/// The first line, and all that it alone decides: refusals 1 to 4.
fn parse_header(reader: &mut Reader) -> Result<Header, Refusal> {
    let numbers = reader.pass(b"aag ").and_then(|()| reader.line::<5>());
    let [most, inputs, latches, outputs, gates] = numbers.ok_or(Refusal::BadHeader)?;
    let fits = reader.text.len() <= MOST_BYTES
        && u64::from(inputs) <= MOST_INPUTS
        && outputs as usize <= MOST_OUTPUTS
        && gates as usize <= MOST_GATES;
    Refusal::TooLarge.unless(fits)?;
    Refusal::Latches.unless(latches == 0)?;
    Refusal::BadCount.unless(most == inputs + gates)?;
    Ok(Header {
        inputs,
        outputs,
        gates,
    })
}

/// One line of one literal, within its rule.
fn parse_single(reader: &mut Reader, rule: impl Fn(Lit) -> bool) -> Result<Lit, Refusal> {
    let [word] = reader.line().ok_or(Refusal::BadLine)?;
    Refusal::BadLiteral.unless(rule(Lit(word)))?;
    Ok(Lit(word))
}

/// One gate line; answers its right sides, larger first.
fn parse_gate(reader: &mut Reader, gate: Var) -> Result<[u32; 2], Refusal> {
    let [left, one, other] = reader.line().ok_or(Refusal::BadLine)?;
    let own = gate.lit(false);
    let holds = Lit(left) == own && Lit(one) < own && Lit(other) < own;
    Refusal::BadLiteral.unless(holds)?;
    Ok([one.max(other), one.min(other)])
}

/// The graph stated by a text: refusals 1 to 6.
pub fn parse(text: &[u8]) -> Result<Graph, Refusal> {
    let mut reader = Reader { text, place: 0 };
    let header = parse_header(&mut reader)?;
    let last = Var(header.inputs + header.gates);
    let mut graph = Graph {
        inputs: u64::from(header.inputs),
        ..Graph::default()
    };
    for k in 1..=header.inputs {
        parse_single(&mut reader, |lit| lit == Var(k).lit(false))?;
    }
    for _ in 0..header.outputs {
        let output = parse_single(&mut reader, |lit| lit <= last.lit(true))?;
        graph.outputs.push(output.0);
    }
    for k in 1..=header.gates {
        let gate = Var(header.inputs + k);
        graph.gates.extend(parse_gate(&mut reader, gate)?);
    }
    let skipped = matches!(reader.peek(), None | Some(b'i' | b'o' | b'c'));
    Refusal::BadLine.unless(skipped)?;
    Ok(graph)
}

/// Reads a text into lent lists; answers inputs, gates and outputs.
pub fn read(
    text: &[u8],
    gates: &mut [u32],
    outputs: &mut [u32],
) -> Result<(u64, usize, usize), Refusal> {
    let graph = parse(text)?;
    let (gate_count, output_count) = graph.store(gates, outputs)?;
    Ok((graph.inputs, gate_count, output_count))
}

/// The text of a well formed graph, nothing after the gates.
fn print(graph: &Graph) -> String {
    let (inputs, outputs, gates) = (graph.inputs, graph.outputs.len(), graph.gate_count());
    let mut text = format!("aag {} {inputs} 0 {outputs} {gates}\n", graph.last_var().0);
    for input in 1..=inputs {
        text += &format!("{}\n", 2 * input);
    }
    for output in &graph.outputs {
        text += &format!("{output}\n");
    }
    for (gate, high, low) in graph.numbered_gates() {
        text += &format!("{} {} {}\n", gate.lit(false).0, high.0, low.0);
    }
    text
}

/// Writes a graph's text to a lent buffer; answers its length.
pub fn write(graph: &Graph, buffer: &mut [u8]) -> Result<usize, Refusal> {
    graph.check()?;
    let text = print(graph);
    Refusal::NoRoom.unless(text.len() <= buffer.len())?;
    buffer[..text.len()].copy_from_slice(text.as_bytes());
    Ok(text.len())
}

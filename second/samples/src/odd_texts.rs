//! Texts at the edge of one rule, good or wrong: a number beside its value, a
//! rest, a cut, first lines at the limits, noise.

use crate::damage::ODD_NUMBERS;
use crate::graphs::{self, Size};
use crate::texts::{mixed, BAD_RESTS};
use crate::Random;
use model::Graph;

/// A number of a later line beside its value, its line's first number or the
/// largest literal.
pub fn one_number_changed(random: &mut Random, graph: &Graph) -> Vec<u8> {
    let text = String::from_utf8(mixed(random, graph)).expect("a text is ASCII");
    let mut lines: Vec<Vec<String>> = text.lines().map(fields).collect();
    if lines.len() > 1 {
        let line = random.between(1, lines.len() - 1);
        let place = random.between(0, lines[line].len() - 1);
        let near = [&lines[line][place], &lines[line][0]].map(|field| value(field));
        let near = [near[0], near[1], graph.last_var().lit(true).0];
        let beside = random.word_between(0, 4);
        lines[line][place] = (random.pick(&near) + beside).saturating_sub(2).to_string();
    }
    let whole: String = lines.iter().map(|line| line.join(" ") + "\n").collect();
    whole.into_bytes()
}

fn fields(line: &str) -> Vec<String> {
    line.split(' ').map(str::to_string).collect()
}

fn value(field: &str) -> u32 {
    field.parse().expect("a field of a later line is a number")
}

/// A rest that is a bad line, or one of any byte.
pub fn any_rest(random: &mut Random, graph: &Graph) -> Vec<u8> {
    let mut text = mixed(random, graph);
    match random.coin() {
        true => text.extend(random.pick(&BAD_RESTS).bytes()),
        false => text.push(random.word() as u8),
    }
    text
}

pub fn cut_anywhere(random: &mut Random, graph: &Graph) -> Vec<u8> {
    let mut text = mixed(random, graph);
    text.truncate(random.between(0, text.len()));
    text
}

/// A first line at the limits, and at times the lines that it announces.
pub fn first_line(random: &mut Random) -> Vec<u8> {
    let inputs = random.pick(&[0, 1, 2, 63, 64, 65]);
    let gates = random.pick(&[0, 1, 2, 1023, 1024, 1025]);
    let outputs = random.pick(&[0, 1, 2, 63, 64, 65]);
    let latches = random.pick(&[0, 0, 0, 1]);
    let highest = inputs + gates + random.pick(&[0, 0, 0, 1]);
    let counts = [highest, inputs, latches, outputs, gates];
    let mut fields: Vec<String> = counts.iter().map(usize::to_string).collect();
    if random.once_in(3) {
        let place = random.between(0, fields.len() - 1);
        fields[place] = random.pick(&ODD_NUMBERS).to_string();
    }
    let mut text = format!("aag {}\n", fields.join(" ")).into_bytes();
    let size = Size {
        inputs: inputs.min(64),
        gates: gates.min(1024),
        outputs: outputs.min(64),
    };
    if random.coin() {
        let graph = graphs::exact(random, size);
        let whole = mixed(random, &graph);
        let lines = whole.iter().position(|&byte| byte == b'\n').unwrap_or(0);
        text.extend(&whole[lines + 1..]);
    }
    text
}

pub fn noise(random: &mut Random) -> Vec<u8> {
    let start: &[u8] = random.pick(&[
        b"" as &[u8],
        b"aag ",
        b"aag 0 0 0 0 0\n",
        b"aag 1 1 0 1 0\n",
    ]);
    let mut text = start.to_vec();
    for _ in 0..random.between(0, 40) {
        text.push(match random.between(0, 2) {
            0 => random.word() as u8,
            _ => random.pick(b"0123456789 \n\raigoc"),
        });
    }
    text
}

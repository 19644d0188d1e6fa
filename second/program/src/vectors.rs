//! Prints sampled calls as a module of rows: what the definitions give, which
//! the prover computes, and what this program answers. Each row is a claim of
//! its own, so that a refused one is named.

mod arguments;
mod calls;
mod notation;
mod sorts;
#[cfg(test)]
mod tests;

use samples::Random;
use std::io::{self, Write};

const SEED: u64 = 1;

const HEADER: &str = "\
use Rattle.std.specs.Prelude.{◌≡◌, refl, [], ◌∷◌}
use Rattle.graph.specs.Graph.{graph_of}
use Rattle.promises.specs.Calls.{
  buffers,
  read_call,
  write_call,
  evaluate_call,
  pick_call,
  table_call,
  list_call,
  apply_call,
  run_call,
}
";

/// A call of the definitions, and what it must give: the answer, then each
/// lent word as the call leaves it.
#[derive(Debug, PartialEq)]
pub struct Row {
    call: &'static str,
    arguments: Vec<String>,
    says: Vec<u64>,
}

pub fn print(out: &mut dyn Write) -> io::Result<()> {
    write!(out, "{HEADER}")?;
    let rows = sorts::rows(&mut Random::new(SEED));
    for (number, row) in rows.iter().enumerate() {
        print_row(number, row, out)?;
    }
    Ok(())
}

fn print_row(number: usize, row: &Row, out: &mut dyn Write) -> io::Result<()> {
    let Row {
        call,
        arguments,
        says,
    } = row;
    let (arguments, says) = (arguments.join(" "), notation::list(says));
    writeln!(out)?;
    writeln!(out, "row_{number} : {call} {arguments} ≡ {says}")?;
    writeln!(out, "unfolding {call}")?;
    writeln!(out, "row_{number} = refl")
}

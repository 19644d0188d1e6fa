//! The lister and the shrinker, each of which reads one text from standard
//! input; a refused text prints `refused`, the number and the name, parted by
//! tabs. Beside them what the proved definitions and the proved calls are
//! compared with.

#[cfg(feature = "proved")]
mod bench;
// What comparisons share is tested without the proved calls too.
#[cfg(any(test, feature = "proved"))]
mod compare;
mod lister;
mod shrinker;
mod source;
mod vectors;

use std::env;
use std::io::{self, BufWriter, Write};
use std::process::ExitCode;

/// A comparison answers whether nothing failed, and has printed what did.
#[derive(Clone, Copy)]
enum Command {
    Prints(fn(&mut dyn Write) -> io::Result<()>),
    #[cfg(feature = "proved")]
    Compares(fn(&mut dyn Write) -> io::Result<bool>),
}

const COMMANDS: &[(&str, Command)] = &[
    ("list", Command::Prints(lister::list)),
    ("shrink", Command::Prints(shrinker::shrink)),
    ("vectors", Command::Prints(vectors::print)),
    #[cfg(feature = "proved")]
    ("compare-text", Command::Compares(compare::text::compare)),
    #[cfg(feature = "proved")]
    ("compare-graph", Command::Compares(compare::graph::compare)),
    #[cfg(feature = "proved")]
    ("compare-apply", Command::Compares(compare::apply::compare)),
    #[cfg(feature = "proved")]
    ("bench", Command::Prints(bench::bench)),
];

/// The command that the arguments name, if they name one and nothing else.
fn chosen() -> Option<Command> {
    let arguments: Vec<String> = env::args().skip(1).collect();
    let [wanted] = arguments.as_slice() else {
        return None;
    };
    let named = COMMANDS.iter().find(|(name, _)| name == wanted);
    named.map(|&(_, command)| command)
}

/// Whether the command succeeded.
fn run(command: Command) -> io::Result<bool> {
    let mut out = BufWriter::new(io::stdout().lock());
    let succeeded = match command {
        Command::Prints(print) => print(&mut out).map(|()| true)?,
        #[cfg(feature = "proved")]
        Command::Compares(compare) => compare(&mut out)?,
    };
    out.flush()?;
    Ok(succeeded)
}

fn main() -> ExitCode {
    let Some(command) = chosen() else {
        let names: Vec<&str> = COMMANDS.iter().map(|&(name, _)| name).collect();
        eprintln!("usage: second {}", names.join("|"));
        return ExitCode::from(2);
    };
    match run(command) {
        Ok(true) => ExitCode::SUCCESS,
        Ok(false) => ExitCode::FAILURE,
        Err(error) => {
            eprintln!("second: {error}");
            ExitCode::FAILURE
        }
    }
}

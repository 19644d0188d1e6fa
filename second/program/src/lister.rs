//! The lister prints, for each gate in use from the highest down, its list
//! under the leaf rule, one record a line.

use crate::source;
use model::listing::Search;
use model::reach::Reach;
use model::{pick_leaves, Graph, Record, Var};
use std::io::{self, Write};

pub fn list(out: &mut dyn Write) -> io::Result<()> {
    match source::graph()? {
        Ok(graph) => print_lists(&graph, out),
        Err(refusal) => source::print_refusal(refusal, out),
    }
}

/// A gate for which leaves are refused is not in use and has no list.
fn print_lists(graph: &Graph, out: &mut dyn Write) -> io::Result<()> {
    let reach = Reach::new(graph);
    for (root, _, _) in graph.numbered_gates().rev() {
        let Ok(leaves) = pick_leaves(graph, root) else {
            continue;
        };
        for record in Search::new(graph, &reach, root, &leaves).good() {
            print_record(root, &record, out)?;
        }
    }
    Ok(())
}

fn print_record(root: Var, record: &Record, out: &mut dyn Write) -> io::Result<()> {
    let Record {
        kind,
        first,
        second,
        turned,
        gain,
    } = record;
    if *kind == 0 {
        writeln!(out, "{}\t{kind}\t{first}\t-\t-\t{gain}", root.0)
    } else {
        writeln!(
            out,
            "{}\t{kind}\t{first}\t{second}\t{turned}\t{gain}",
            root.0
        )
    }
}

//! The lister and the shrinker as they are started.

use model::{list, pick_leaves, Graph, ListRefusal, Record};
use samples::texts::{mixed, of_length, plain};
use samples::{graphs, Random};
use std::io::Write;
use std::process::{Command, Output, Stdio};

const E1: &str = "aag 4 2 0 1 2\n2\n4\n8\n6 4 2\n8 6 2\n";

/// Starts the program; a text that it does not read to its end is no fault.
fn start(arguments: &[&str], text: &[u8]) -> Output {
    let mut child = Command::new(env!("CARGO_BIN_EXE_second"))
        .args(arguments)
        .stdin(Stdio::piped())
        .stdout(Stdio::piped())
        .stderr(Stdio::piped())
        .spawn()
        .expect("the program starts");
    let mut input = child.stdin.take().expect("standard input is piped");
    input.write_all(text).ok();
    drop(input);
    child.wait_with_output().expect("the program ends")
}

/// What a command prints; nothing else may come with it.
fn printed(command: &str, text: &[u8]) -> String {
    let output = start(&[command], text);
    assert!(output.status.success());
    assert!(output.stderr.is_empty());
    String::from_utf8(output.stdout).expect("the output is ASCII")
}

#[test]
fn the_lister_prints_two_records_on_e1() {
    let expected = "4\t0\t6\t-\t-\t1\n4\t1\t4\t2\t0\t1\n";
    assert_eq!(printed("list", E1.as_bytes()), expected);
}

#[test]
fn the_shrinker_prints_one_gate_on_e1() {
    let expected = "aag 3 2 0 1 1\n2\n4\n6\n6 4 2\n";
    assert_eq!(printed("shrink", E1.as_bytes()), expected);
}

#[test]
fn the_empty_graph_has_no_list_and_stays() {
    let empty = "aag 0 0 0 0 0\n";
    assert_eq!(printed("list", empty.as_bytes()), "");
    assert_eq!(printed("shrink", empty.as_bytes()), empty);
}

#[test]
fn a_refused_text_prints_one_line() {
    let refused = [
        ("aag\n", "refused\t1\tBAD HEADER\n"),
        ("aag 65 65 0 0 0\n", "refused\t2\tTOO LARGE\n"),
        ("aag 1 0 1 0 0\n2 2\n", "refused\t3\tLATCHES\n"),
        ("aag 1 0 0 0 0\n", "refused\t4\tBAD COUNT\n"),
        ("aag 1 1 0 0 0\n", "refused\t5\tBAD LINE\n"),
        ("aag 2 1 0 1 1\n2\n4\n4 4 2\n", "refused\t6\tBAD LITERAL\n"),
    ];
    for (text, expected) in refused {
        assert_eq!(printed("list", text.as_bytes()), expected);
        assert_eq!(printed("shrink", text.as_bytes()), expected);
    }
}

#[test]
fn a_text_of_65535_bytes_is_taken_and_a_longer_one_refused() {
    let graph = Graph::default();
    assert_eq!(printed("list", &of_length(&graph, 65_535)), "");
    for length in [65_536, 65_537, 200_000] {
        let answer = printed("list", &of_length(&graph, length));
        assert_eq!(answer, "refused\t2\tTOO LARGE\n");
    }
}

#[test]
fn no_command_or_another_prints_nothing() {
    for arguments in [&[][..], &["shrinks"], &["list", "shrink"]] {
        let output = start(arguments, E1.as_bytes());
        assert_eq!(output.status.code(), Some(2));
        assert!(output.stdout.is_empty());
    }
}

/// The lister's lines, made from the lists of the lent call.
fn lines(graph: &Graph) -> String {
    let mut lines = String::new();
    for (root, _, _) in graph.numbered_gates().rev() {
        let Ok(leaves) = pick_leaves(graph, root) else {
            continue;
        };
        let mut records = vec![Record::default(); 64];
        if let Err(ListRefusal::NoRoom { needed }) = list(graph, root, &leaves, &mut records) {
            records.resize(needed, Record::default());
        }
        let count = list(graph, root, &leaves, &mut records).expect("room is enough");
        for record in &records[..count] {
            let (second, turned) = match record.kind {
                0 => ("-".to_string(), "-".to_string()),
                _ => (record.second.to_string(), record.turned.to_string()),
            };
            let (kind, first, gain) = (record.kind, record.first, record.gain);
            lines += &format!("{}\t{kind}\t{first}\t{second}\t{turned}\t{gain}\n", root.0);
        }
    }
    lines
}

#[test]
fn the_lister_prints_what_the_call_lists() {
    let mut random = Random::new(81);
    for _ in 0..200 {
        let graph = graphs::any(&mut random);
        let text = mixed(&mut random, &graph);
        assert_eq!(printed("list", &text), lines(&graph));
    }
}

#[test]
fn the_shrinker_prints_a_text_that_it_prints_again() {
    let mut random = Random::new(82);
    for _ in 0..100 {
        let graph = graphs::any(&mut random);
        let once = printed("shrink", &plain(&graph));
        assert_eq!(printed("shrink", once.as_bytes()), once);
    }
}

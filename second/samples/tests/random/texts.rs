//! Random texts, sound and damaged.

use model::text::parse;
use model::{Graph, Refusal};
use samples::damage::damaged;
use samples::edges::{bad_graphs, edges};
use samples::texts::{mixed, of_length, plain, valid, BAD_RESTS, GOOD_RESTS};
use samples::{graphs, Random};

#[test]
fn what_is_written_is_read_back() {
    let mut random = Random::new(11);
    for _ in 0..2000 {
        let graph = graphs::any(&mut random);
        assert_eq!(parse(&plain(&graph)), Ok(graph));
    }
    for _ in 0..50 {
        let graph = graphs::big(&mut random);
        assert_eq!(parse(&plain(&graph)), Ok(graph));
    }
}

#[test]
fn every_sound_edge_is_written_and_read_back() {
    for edge in edges().into_iter().filter(|edge| edge.well_formed) {
        assert_eq!(parse(&plain(&edge.graph)), Ok(edge.graph), "{}", edge.name);
    }
}

#[test]
fn no_bad_graph_is_written() {
    for graph in bad_graphs() {
        let mut buffer = [0xEE; 16];
        assert_eq!(model::write(&graph, &mut buffer), Err(Refusal::BadGraph));
        assert_eq!(buffer, [0xEE; 16]);
    }
}

#[test]
fn right_sides_and_rests_do_not_matter() {
    let mut random = Random::new(12);
    for _ in 0..1000 {
        let graph = graphs::any(&mut random);
        assert_eq!(parse(&mixed(&mut random, &graph)), Ok(graph.clone()));
        assert_eq!(parse(&valid(&mut random, &graph)), Ok(graph));
    }
}

/// The text of the graph with this behind it.
fn with_rest(graph: &Graph, rest: &str) -> Vec<u8> {
    let mut text = plain(graph);
    text.extend(rest.bytes());
    text
}

#[test]
fn only_the_first_byte_of_a_rest_is_judged() {
    let mut random = Random::new(13);
    for _ in 0..200 {
        let graph = graphs::small(&mut random);
        for rest in GOOD_RESTS {
            assert_eq!(parse(&with_rest(&graph, rest)), Ok(graph.clone()));
        }
        for rest in BAD_RESTS {
            assert_eq!(parse(&with_rest(&graph, rest)), Err(Refusal::BadLine));
        }
    }
}

#[test]
fn a_text_of_65535_bytes_is_read_and_one_of_65536_is_not() {
    let mut random = Random::new(14);
    for _ in 0..50 {
        let graph = graphs::mid(&mut random);
        assert_eq!(parse(&of_length(&graph, 65_535)), Ok(graph.clone()));
        assert_eq!(parse(&of_length(&graph, 65_536)), Err(Refusal::TooLarge));
    }
}

#[test]
fn every_cut_before_the_end_is_refused() {
    let mut random = Random::new(15);
    for _ in 0..200 {
        let text = plain(&graphs::small(&mut random));
        let header = text.iter().position(|&byte| byte == b'\n').unwrap();
        for length in 0..text.len() {
            let cut_header = length <= header;
            let refusal = if cut_header {
                Refusal::BadHeader
            } else {
                Refusal::BadLine
            };
            assert_eq!(parse(&text[..length]), Err(refusal));
        }
    }
}

/// What a damaged text states must be well formed; a refusal must be a text's.
fn judge(text: &[u8]) -> bool {
    match parse(text) {
        Ok(graph) => {
            assert!(graph.is_well_formed());
            true
        }
        Err(refusal) => {
            assert!(refusal.number() <= 6);
            false
        }
    }
}

#[test]
fn damaged_texts_are_read_or_refused() {
    let mut random = Random::new(16);
    let mut read = 0;
    for _ in 0..100_000 {
        let graph = graphs::small(&mut random);
        let text = valid(&mut random, &graph);
        read += usize::from(judge(&damaged(&mut random, &text)));
    }
    assert!((1000..90_000).contains(&read), "{read}");
}

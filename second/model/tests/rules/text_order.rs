//! Of several refusals of a text the lowest number is given; of 5 and 6 the
//! earlier line decides.

use crate::given::*;
use model::{read, Refusal};

fn refused(text: &str, refusal: Refusal) {
    assert_eq!(read_graph(text.as_bytes()), Err(refusal), "{text:?}");
}

#[test]
fn bad_header_comes_before_too_large() {
    refused("aag 65 65 0 0\n", Refusal::BadHeader);
    refused(
        &format!("aag 0 0 0 0 00\n{}", "c".repeat(70_000)),
        Refusal::BadHeader,
    );
    refused(&"a".repeat(70_000), Refusal::BadHeader);
}

#[test]
fn too_large_comes_before_latches() {
    refused("aag 65 65 1 0 0\n", Refusal::TooLarge);
    refused(
        &format!("aag 1 0 1 0 0\n{}", "c".repeat(70_000)),
        Refusal::TooLarge,
    );
}

#[test]
fn too_large_comes_before_what_follows() {
    let behind = "x".repeat(65_536 - 14);
    refused(&format!("aag 9 1 0 1 0\n{behind}"), Refusal::TooLarge);
}

#[test]
fn latches_come_before_bad_count() {
    refused("aag 9 0 1 0 0\n", Refusal::Latches);
}

#[test]
fn bad_count_comes_before_bad_line() {
    refused("aag 9 1 0 0 0\nx\n", Refusal::BadCount);
}

#[test]
fn bad_count_comes_before_bad_literal() {
    refused("aag 9 1 0 0 0\n4\n", Refusal::BadCount);
}

#[test]
fn the_earlier_of_a_bad_line_and_a_bad_literal_decides() {
    refused("aag 2 2 0 0 0\nx\n2\n", Refusal::BadLine);
    refused("aag 2 2 0 0 0\n4\nx\n", Refusal::BadLiteral);
    refused("aag 1 1 0 1 0\n2\n4\n\n", Refusal::BadLiteral);
    refused("aag 1 1 0 1 0\n2\n4", Refusal::BadLine);
    refused("aag 1 0 0 0 1\n4 0  0\n", Refusal::BadLine);
}

#[test]
fn the_rest_is_the_last_line() {
    refused("aag 1 0 0 0 1\n2 2 0\nx\n", Refusal::BadLiteral);
}

#[test]
fn refusals_of_a_text_come_before_no_room() {
    let texts = [
        ("aag 0 0 0 1\n", Refusal::BadHeader),
        ("aag 65 65 0 1 0\n", Refusal::TooLarge),
        ("aag 1 0 1 1 0\n", Refusal::Latches),
        ("aag 9 0 0 1 0\n", Refusal::BadCount),
        ("aag 0 0 0 1 0\nx\n", Refusal::BadLine),
        ("aag 0 0 0 1 0\n2\n", Refusal::BadLiteral),
        ("aag 0 0 0 1 0\n1\n", Refusal::NoRoom),
    ];
    for (text, refusal) in texts {
        assert_eq!(read(text.as_bytes(), &mut [], &mut []), Err(refusal));
    }
}

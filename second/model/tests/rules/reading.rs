//! What the reader takes and refuses, line by line.

use crate::given::*;
use model::Refusal;

fn all_refused(texts: &[&str], refusal: Refusal) {
    for text in texts {
        assert_eq!(read_graph(text.as_bytes()), Err(refusal), "{text:?}");
    }
}

fn all_read(texts: &[&str]) {
    for text in texts {
        assert!(read_graph(text.as_bytes()).is_ok(), "{text:?}");
    }
}

#[test]
fn a_header_of_another_shape_is_a_bad_header() {
    all_refused(
        &[
            "",
            "\n",
            "aag",
            "aag 0 0 0 0 0",
            "aag 0 0 0 0\n",
            "aag 0 0 0 0 \n",
            "aag 0 0 0 0 0 \n",
            "aag 0 0 0 0 0 0\n",
            "aag 0 0 0 0 0 0 0 0 0\n",
            "aag 0 0 0 0 0\r\n",
            "aag  0 0 0 0 0\n",
            "aag 0 0  0 0 0\n",
            " aag 0 0 0 0 0\n",
            "aag\t0 0 0 0 0\n",
            "aig 0 0 0 0 0\n",
            "AAG 0 0 0 0 0\n",
            "aag 0 0 0 0 x\n",
            "aag 0 0 0 0 -0\n",
        ],
        Refusal::BadHeader,
    );
}

#[test]
fn a_number_out_of_shape_in_the_header_is_a_bad_header() {
    all_refused(
        &[
            "aag 00 0 0 0 0\n",
            "aag 0 01 0 0 0\n",
            "aag 4294967296 0 0 0 0\n",
            "aag 0 4294967296 0 0 0\n",
            "aag 0 0 4294967298 0 0\n",
            "aag 0 0 0 18446744073709551618 0\n",
            "aag 0 0 0 0 99999999999999999999999999999999\n",
        ],
        Refusal::BadHeader,
    );
}

#[test]
fn the_largest_number_is_in_shape() {
    let largest = "4294967295";
    let refused = |text: String, refusal| all_refused(&[&text], refusal);
    refused(format!("aag {largest} 0 0 0 0\n"), Refusal::BadCount);
    refused(format!("aag 0 {largest} 0 0 0\n"), Refusal::TooLarge);
    refused(format!("aag 0 0 {largest} 0 0\n"), Refusal::Latches);
    refused(format!("aag 0 0 0 {largest} 0\n"), Refusal::TooLarge);
    refused(format!("aag 0 0 0 0 {largest}\n"), Refusal::TooLarge);
    refused(format!("aag 1 1 0 0 0\n{largest}\n"), Refusal::BadLiteral);
    refused(format!("aag 0 0 0 1 0\n{largest}\n"), Refusal::BadLiteral);
    refused(
        format!("aag 1 0 0 0 1\n2 {largest} 0\n"),
        Refusal::BadLiteral,
    );
}

#[test]
fn a_header_past_a_limit_is_too_large() {
    all_refused(
        &[
            "aag 65 65 0 0 0\n",
            "aag 0 0 0 65 0\n",
            "aag 1025 0 0 0 1025\n",
        ],
        Refusal::TooLarge,
    );
}

#[test]
fn a_latch_is_refused() {
    all_refused(&["aag 1 0 1 0 0\n2 2\n"], Refusal::Latches);
}

#[test]
fn another_count_of_variables_is_a_bad_count() {
    all_refused(
        &[
            "aag 1 0 0 0 0\n",
            "aag 0 1 0 0 0\n2\n",
            "aag 3 1 0 0 1\n2\n4 2 2\n",
        ],
        Refusal::BadCount,
    );
}

#[test]
fn a_missing_or_misshapen_line_is_a_bad_line() {
    all_refused(
        &[
            "aag 1 1 0 0 0\n",
            "aag 1 1 0 0 0\n2",
            "aag 1 1 0 0 0\n2 \n",
            "aag 1 1 0 0 0\n 2\n",
            "aag 1 1 0 0 0\n2\r\n",
            "aag 1 1 0 0 0\n02\n",
            "aag 1 1 0 0 0\n\n2\n",
            "aag 1 1 0 0 0\n2 2\n",
            "aag 1 1 0 0 0\ni\n",
            "aag 0 0 0 1 0\n",
            "aag 0 0 0 1 0\n1",
            "aag 0 0 0 1 0\n4294967296\n",
            "aag 0 0 0 1 0\n18446744073709551616\n",
            "aag 1 0 0 0 1\n",
            "aag 1 0 0 0 1\n2 0 0",
            "aag 1 0 0 0 1\n2 0\n",
            "aag 1 0 0 0 1\n2 0 0 0\n",
            "aag 1 0 0 0 1\n2 0  0\n",
            "aag 1 0 0 0 1\n2 0 00\n",
            "aag 1 0 0 0 1\nc\n",
        ],
        Refusal::BadLine,
    );
}

#[test]
fn a_line_that_breaks_its_rule_is_a_bad_literal() {
    all_refused(
        &[
            "aag 1 1 0 0 0\n0\n",
            "aag 1 1 0 0 0\n3\n",
            "aag 2 2 0 0 0\n4\n2\n",
            "aag 1 1 0 1 0\n2\n4\n",
            "aag 1 0 0 0 1\n3 0 0\n",
            "aag 1 0 0 0 1\n4 0 0\n",
            "aag 1 0 0 0 1\n2 2 0\n",
            "aag 1 0 0 0 1\n2 0 2\n",
            "aag 1 0 0 0 1\n2 0 3\n",
            "aag 2 0 0 0 2\n4 0 0\n2 0 0\n",
        ],
        Refusal::BadLiteral,
    );
}

#[test]
fn the_highest_literals_are_read() {
    all_read(&["aag 1 1 0 1 0\n2\n3\n", "aag 2 1 0 1 1\n2\n5\n4 3 3\n"]);
}

#[test]
fn a_rest_that_starts_with_i_o_or_c_is_skipped() {
    for rest in ["", "c", "c\n", "i", "i0 a\n", "oh", "o\n\n", "c\n\r\0 7"] {
        assert_eq!(read_graph(format!("{E1}{rest}").as_bytes()), Ok(e1()));
    }
}

#[test]
fn another_rest_is_a_bad_line() {
    for rest in [
        "\n", "\nc\n", "l0 a\n", "0\n", "10 2 2\n", " c\n", "\r\n", "I\n",
    ] {
        all_refused(&[&format!("{E1}{rest}")], Refusal::BadLine);
    }
}

#[test]
fn a_text_may_have_65535_bytes_but_not_65536() {
    let mut text = E1.to_string();
    text += &"c".repeat(65_535 - text.len());
    assert_eq!(read_graph(text.as_bytes()), Ok(e1()));
    text.push('c');
    assert_eq!(read_graph(text.as_bytes()), Err(Refusal::TooLarge));
}

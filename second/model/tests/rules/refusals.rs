//! Numbers and names of the sixteen refusals.

use model::Refusal::*;

#[test]
fn each_refusal_has_its_number_and_its_name() {
    let expected = [
        (BadHeader, "BAD HEADER"),
        (TooLarge, "TOO LARGE"),
        (Latches, "LATCHES"),
        (BadCount, "BAD COUNT"),
        (BadLine, "BAD LINE"),
        (BadLiteral, "BAD LITERAL"),
        (BadGraph, "BAD GRAPH"),
        (BadAssignment, "BAD ASSIGNMENT"),
        (BadRoot, "BAD ROOT"),
        (BadLeaves, "BAD LEAVES"),
        (NotACut, "NOT A CUT"),
        (BadCandidate, "BAD CANDIDATE"),
        (NotEqual, "NOT EQUAL"),
        (NoGain, "NO GAIN"),
        (OrderLost, "ORDER LOST"),
        (NoRoom, "NO ROOM"),
    ];
    for (number, (refusal, name)) in (1..).zip(expected) {
        assert_eq!((refusal.number(), refusal.name()), (number, name));
    }
}

//! The proved calls, as the crate `exports_c` offers them. Nothing checks these
//! declarations against the Rattle source, so they keep to numbers and slices:
//! a slice is passed as a pointer and a length.

use model::{Graph, Leaves, Proposal};

extern "C" {
    fn nenquilco_read(
        text: *const u8,
        text_length: usize,
        gates: *mut u32,
        gates_length: usize,
        outputs: *mut u32,
        outputs_length: usize,
        inputs: *mut usize,
        gate_count: *mut usize,
        output_count: *mut usize,
    ) -> u32;

    fn nenquilco_write(
        inputs: usize,
        gates: *const u32,
        gates_length: usize,
        outputs: *const u32,
        outputs_length: usize,
        bytes: *mut u8,
        bytes_length: usize,
        length: *mut usize,
    ) -> u32;

    fn nenquilco_evaluate(
        inputs: usize,
        gates: *const u32,
        gates_length: usize,
        outputs: *const u32,
        outputs_length: usize,
        assignment: *const u32,
        assignment_length: usize,
        values: *mut u32,
        values_length: usize,
        count: *mut usize,
    ) -> u32;

    fn nenquilco_pick(
        inputs: usize,
        gates: *const u32,
        gates_length: usize,
        outputs: *const u32,
        outputs_length: usize,
        root: u32,
        count: *mut usize,
        a: *mut u32,
        b: *mut u32,
        c: *mut u32,
        d: *mut u32,
        e: *mut u32,
        f: *mut u32,
    ) -> u32;

    fn nenquilco_table(
        inputs: usize,
        gates: *const u32,
        gates_length: usize,
        outputs: *const u32,
        outputs_length: usize,
        root: u32,
        count: usize,
        a: u32,
        b: u32,
        c: u32,
        d: u32,
        e: u32,
        f: u32,
        bits: *mut u64,
    ) -> u32;

    fn nenquilco_apply(
        inputs: usize,
        gates: *const u32,
        gates_length: usize,
        outputs: *const u32,
        outputs_length: usize,
        root: u32,
        count: usize,
        a: u32,
        b: u32,
        c: u32,
        d: u32,
        e: u32,
        f: u32,
        kind: u32,
        first: u32,
        second: u32,
        turned: u32,
        words: *mut u32,
        words_length: usize,
        results: *mut u32,
        results_length: usize,
        gate_count: *mut usize,
        output_count: *mut usize,
    ) -> u32;
}

/// Reads a text into lent lists. The answer is a refusal's number, or 0; then
/// the counts are those of inputs, gates and outputs.
pub fn read(text: &[u8], gates: &mut [u32], outputs: &mut [u32], counts: &mut [usize; 3]) -> u32 {
    let [inputs, gate_count, output_count] = counts;
    // SAFETY: each pointer is a slice's or a number's that is lent to this call
    // alone, and a slice's goes with its length; the call keeps none of them.
    unsafe {
        nenquilco_read(
            text.as_ptr(),
            text.len(),
            gates.as_mut_ptr(),
            gates.len(),
            outputs.as_mut_ptr(),
            outputs.len(),
            inputs,
            gate_count,
            output_count,
        )
    }
}

/// Writes a graph's text to a lent buffer. The answer is a refusal's number, or
/// 0; then the length is that of the text.
pub fn write(graph: &Graph, bytes: &mut [u8], length: &mut usize) -> u32 {
    // SAFETY: as above.
    unsafe {
        nenquilco_write(
            graph.inputs as usize,
            graph.gates.as_ptr(),
            graph.gates.len(),
            graph.outputs.as_ptr(),
            graph.outputs.len(),
            bytes.as_mut_ptr(),
            bytes.len(),
            length,
        )
    }
}

/// Stores the outputs' values under an assignment in lent words. The answer is
/// a refusal's number, or 0; then the count is that of the outputs.
pub fn evaluate(graph: &Graph, assignment: &[u32], values: &mut [u32], count: &mut usize) -> u32 {
    // SAFETY: as above.
    unsafe {
        nenquilco_evaluate(
            graph.inputs as usize,
            graph.gates.as_ptr(),
            graph.gates.len(),
            graph.outputs.as_ptr(),
            graph.outputs.len(),
            assignment.as_ptr(),
            assignment.len(),
            values.as_mut_ptr(),
            values.len(),
            count,
        )
    }
}

/// Picks a root's leaves by the rule. The answer is a refusal's number, and the
/// leaves are as they were, or 0.
pub fn pick(graph: &Graph, root: u32, leaves: &mut Leaves) -> u32 {
    let [a, b, c, d, e, f] = &mut leaves.places;
    // SAFETY: as above.
    unsafe {
        nenquilco_pick(
            graph.inputs as usize,
            graph.gates.as_ptr(),
            graph.gates.len(),
            graph.outputs.as_ptr(),
            graph.outputs.len(),
            root,
            &mut leaves.count,
            a,
            b,
            c,
            d,
            e,
            f,
        )
    }
}

/// Asks for a root's table over lent leaves. The answer is a refusal's number,
/// or 0; then the bits are the table's.
pub fn table(graph: &Graph, root: u32, leaves: &Leaves, bits: &mut u64) -> u32 {
    let [a, b, c, d, e, f] = leaves.places;
    // SAFETY: as above.
    unsafe {
        nenquilco_table(
            graph.inputs as usize,
            graph.gates.as_ptr(),
            graph.gates.len(),
            graph.outputs.as_ptr(),
            graph.outputs.len(),
            root,
            leaves.count,
            a,
            b,
            c,
            d,
            e,
            f,
            bits,
        )
    }
}

/// Applies a proposal and stores the finished graph in lent lists. The answer
/// is a refusal's number, or 0; then the counts are those of gates and outputs.
pub fn apply(
    graph: &Graph,
    root: u32,
    leaves: &Leaves,
    proposal: &Proposal,
    words: &mut [u32],
    results: &mut [u32],
    counts: &mut [usize; 2],
) -> u32 {
    let [a, b, c, d, e, f] = leaves.places;
    let [gate_count, output_count] = counts;
    // SAFETY: as above.
    unsafe {
        nenquilco_apply(
            graph.inputs as usize,
            graph.gates.as_ptr(),
            graph.gates.len(),
            graph.outputs.as_ptr(),
            graph.outputs.len(),
            root,
            leaves.count,
            a,
            b,
            c,
            d,
            e,
            f,
            proposal.kind,
            proposal.first,
            proposal.second,
            proposal.turned,
            words.as_mut_ptr(),
            words.len(),
            results.as_mut_ptr(),
            results.len(),
            gate_count,
            output_count,
        )
    }
}

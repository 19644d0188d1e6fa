//! Texts of random graphs: plain, with right sides in either order, with a
//! rest behind the gates, and of a wanted length.

use crate::Random;
use model::{write, Graph};

/// Rests that are skipped.
pub const GOOD_RESTS: [&str; 8] = [
    "",
    "c",
    "c\n",
    "i",
    "i0 left\no0 right\nc\nby hand\n",
    "oh",
    "o0 out\n\n\n7\n",
    "c\nany \r\n\0 thing",
];

/// Rests that are a bad line.
pub const BAD_RESTS: [&str; 9] = [
    "\n",
    "\nc\n",
    "l0 latch\n",
    "0\n",
    "2 1 0\n",
    " c\n",
    "C\n",
    "\r\n",
    "\0",
];

/// The text that the writer prints.
pub fn plain(graph: &Graph) -> Vec<u8> {
    let mut text = vec![0; 65_535];
    let length = write(graph, &mut text).expect("a well formed graph has a text");
    text.truncate(length);
    text
}

/// The plain text with the right sides of some gates the other way round.
pub fn mixed(random: &mut Random, graph: &Graph) -> Vec<u8> {
    let plain = String::from_utf8(plain(graph)).expect("a text is ASCII");
    let mut text = String::new();
    for line in plain.lines() {
        let fields: Vec<&str> = line.split(' ').collect();
        match fields[..] {
            [left, high, low] if random.coin() => text += &format!("{left} {low} {high}\n"),
            _ => text += &format!("{line}\n"),
        }
    }
    text.into_bytes()
}

/// A text that is read: mixed sides and a rest that is skipped.
pub fn valid(random: &mut Random, graph: &Graph) -> Vec<u8> {
    let mut text = mixed(random, graph);
    text.extend(random.pick(&GOOD_RESTS).bytes());
    text
}

/// The plain text with a comment that fills it up to this length.
pub fn of_length(graph: &Graph, length: usize) -> Vec<u8> {
    let mut text = plain(graph);
    text.resize(length, b'c');
    text
}

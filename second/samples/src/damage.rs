//! Damaged texts: bytes changed, inserted or deleted, lines swapped, doubled
//! or lost, cuts anywhere, and numbers, blanks and line ends that break shape.

use crate::texts::BAD_RESTS;
use crate::Random;

/// Numbers at and past the largest one, and other odd numbers.
pub const ODD_NUMBERS: [&str; 13] = [
    "4294967295",
    "4294967296",
    "4294967298",
    "18446744073709551615",
    "18446744073709551618",
    "99999999999999999999999999999999999999999999",
    "00",
    "01",
    "0000000002",
    "",
    "-1",
    "+2",
    "1e3",
];

const BYTES: &[u8] = b"0123456789 \n\r\taiolcgb-+\0\xFF";

/// The text after one to three faults.
pub fn damaged(random: &mut Random, text: &[u8]) -> Vec<u8> {
    let mut text = text.to_vec();
    for _ in 0..random.between(1, 3) {
        text = match random.between(0, 2) {
            0 => damage_bytes(random, text),
            1 => damage_lines(random, text),
            _ => damage_fields(random, text),
        };
    }
    text
}

fn damage_bytes(random: &mut Random, mut text: Vec<u8>) -> Vec<u8> {
    let place = random.between(0, text.len());
    let byte = random.pick(BYTES);
    match random.between(0, 3) {
        0 => text.insert(place, byte),
        1 => text.truncate(place),
        2 if place < text.len() => text[place] = byte,
        _ if place < text.len() => {
            text.remove(place);
        }
        _ => text.extend(random.pick(&BAD_RESTS).bytes()),
    }
    text
}

fn damage_lines(random: &mut Random, text: Vec<u8>) -> Vec<u8> {
    let mut lines: Vec<&[u8]> = text.split_inclusive(|&byte| byte == b'\n').collect();
    if lines.is_empty() {
        return text;
    }
    let (one, other) = (
        random.between(0, lines.len() - 1),
        random.between(0, lines.len() - 1),
    );
    match random.between(0, 4) {
        0 => lines.swap(one, other),
        1 => lines.insert(one, lines[other]),
        2 => lines.insert(one, b"\n"),
        3 => lines[one] = lines[one].strip_suffix(b"\n").unwrap_or(lines[one]),
        _ => {
            lines.remove(one);
        }
    }
    lines.concat()
}

/// Changes one field of one line, or what parts it from the next.
fn damage_fields(random: &mut Random, text: Vec<u8>) -> Vec<u8> {
    let is_end = |byte: u8| byte == b' ' || byte == b'\n';
    let mut fields: Vec<Vec<u8>> = text
        .split_inclusive(|&byte| is_end(byte))
        .map(<[u8]>::to_vec)
        .collect();
    if fields.is_empty() {
        return text;
    }
    let place = random.between(0, fields.len() - 1);
    let field = &mut fields[place];
    let end = field.last().copied().filter(|&byte| is_end(byte));
    field.truncate(field.len() - usize::from(end.is_some()));
    match random.between(0, 4) {
        0 => *field = random.pick(&ODD_NUMBERS).into(),
        1 => *field = random.between(0, 2200).to_string().into(),
        2 => field.insert(0, b'0'),
        3 => field.push(b' '),
        _ => field.push(b'\r'),
    }
    field.extend(end);
    fields.concat()
}

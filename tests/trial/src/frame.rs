//! Damage to the bytes of a written message.

use crate::damage::Damage;
use crate::random::Random;

const SPECIAL: &[u8] = b"|^~\\&|^~\\&\r\rAFSTREZ09 .+-\"";
const FORBIDDEN: &[u8] = &[0, 1, 9, 10, 12, 14, 27, 31, 127, 128, 160, 195, 255];

fn any_byte(random: &mut Random) -> u8 {
    match random.below(20) {
        0 => random.pick(FORBIDDEN),
        1 => random.below(256) as u8,
        2..=6 => random.between(0x20, 0x7E) as u8,
        _ => random.pick(SPECIAL),
    }
}

fn at(random: &mut Random, bytes: &[u8]) -> usize {
    random.below(bytes.len().max(1))
}

// the list of edits wants them all alike
#[allow(clippy::ptr_arg)]
fn change(random: &mut Random, bytes: &mut Vec<u8>) {
    let at = at(random, bytes);
    let byte = any_byte(random);
    if let Some(old) = bytes.get_mut(at) {
        *old = byte;
    }
}

fn insert(random: &mut Random, bytes: &mut Vec<u8>) {
    let at = random.between(0, bytes.len());
    let byte = any_byte(random);
    bytes.insert(at, byte);
}

fn delete(random: &mut Random, bytes: &mut Vec<u8>) {
    if !bytes.is_empty() {
        let at = at(random, bytes);
        bytes.remove(at);
    }
}

#[allow(clippy::ptr_arg)]
fn exchange(random: &mut Random, bytes: &mut Vec<u8>) {
    if bytes.len() > 1 {
        let at = random.below(bytes.len() - 1);
        bytes.swap(at, at + 1);
    }
}

fn repeat(random: &mut Random, bytes: &mut Vec<u8>) {
    let from = at(random, bytes);
    let to = (from + random.between(1, 40)).min(bytes.len());
    let part = bytes[from.min(to)..to].to_vec();
    let place = random.between(0, bytes.len());
    bytes.splice(place..place, part);
}

fn cut(random: &mut Random, bytes: &mut Vec<u8>) {
    let kept = at(random, bytes);
    bytes.truncate(kept);
    if random.one_in(2) {
        bytes.push(b'\r');
    }
}

/// Numbers 1 and 4: few bytes of a header.
fn short_header(random: &mut Random, bytes: &mut Vec<u8>) {
    let kept = random.between(0, 10);
    bytes.truncate(kept);
    if random.one_in(2) {
        bytes.push(b'\r');
    }
}

/// Number 3.
fn bad_byte(random: &mut Random, bytes: &mut Vec<u8>) {
    let at = random.between(0, bytes.len());
    let byte = random.pick(FORBIDDEN);
    bytes.insert(at, byte);
}

/// Number 4: another header.
fn bad_header(random: &mut Random, bytes: &mut Vec<u8>) {
    let at = random.below(9);
    let byte = random.pick(b"|^~\\&MSHX m#");
    match bytes.get_mut(at) {
        Some(old) if random.percent(80) => *old = byte,
        _ => bytes.insert(0, byte),
    }
}

/// Number 5: something else at the end.
fn bad_end(random: &mut Random, bytes: &mut Vec<u8>) {
    match random.below(4) {
        0 => bytes.push(random.pick(b"\nX|\\ ")),
        1 => bytes.extend_from_slice(random.pick(&["NTE", "N", "ZZX|", "nte|1", "MSH|"]).as_bytes()),
        _ => {
            bytes.pop();
        }
    }
}

static BAD_SEGMENTS: &[&str] = &[
    "", "", "P", "PI", "pid|1", "PId|1", "1BX|", "OBX1|", "OBX^1", "OB|1", "|", "||", "  X", "PID ", " PID|1", "OB&|",
    "O_X|", "A", "AB|", "0AA", "AAa|", "A\\F\\", "NTE~", "MSHX|", "MS|1", "msh|", "AA:|", "A@A|", "A[A|", "A/A",
];

/// Number 6, between two segments; or a name of the form beside it.
fn bad_segment(random: &mut Random, bytes: &mut Vec<u8>) {
    let good = random.pick(&["Z09", "A00|", "ZZZ", "A9A|x", "NTE", "Z9Z|\\"]);
    let line = if random.one_in(8) { good } else { random.pick(BAD_SEGMENTS) };
    let ends: Vec<usize> = (0..bytes.len()).filter(|at| bytes[*at] == b'\r').collect();
    if !ends.is_empty() {
        let place = random.pick(&ends) + 1;
        bytes.splice(place..place, [line.as_bytes(), b"\r"].concat());
    }
}

/// Number 7, and what only looks like it.
fn later_header(random: &mut Random, bytes: &mut Vec<u8>) {
    let line = random.pick(&["MSH\r", "MSH|^~\\&|A\r", "MSH|\r", "MSHA|\r", "MSI|\r", "MSH^|\r"]);
    let ends: Vec<usize> = (0..bytes.len()).filter(|at| bytes[*at] == b'\r').collect();
    if !ends.is_empty() {
        let place = random.pick(&ends) + 1;
        bytes.splice(place..place, line.as_bytes().to_vec());
    }
}

/// Other line ends.
fn line_feeds(random: &mut Random, bytes: &mut Vec<u8>) {
    let both = random.one_in(2);
    let mut out = Vec::new();
    for byte in bytes.iter() {
        if *byte != b'\r' || both {
            out.push(*byte);
        }
        if *byte == b'\r' {
            out.push(b'\n');
        }
    }
    *bytes = out;
}

pub static EDITS: &[Damage<Vec<u8>>] = &[
    ("byte changed", 12, change),
    ("byte put in", 10, insert),
    ("byte taken out", 10, delete),
    ("bytes exchanged", 6, exchange),
    ("bytes repeated", 4, repeat),
    ("message cut", 4, cut),
];

pub static DAMAGES: &[Damage<Vec<u8>>] = &[
    ("short header", 6, short_header),
    ("bad byte", 6, bad_byte),
    ("bad header", 6, bad_header),
    ("bad end", 6, bad_end),
    ("bad segment", 8, bad_segment),
    ("later header", 6, later_header),
    ("line feeds", 2, line_feeds),
];

//! What is lent and told beside a message: stamps, reply numbers, buffers, books, groups and slots.

use crate::dates;
use crate::draft::names;
use crate::numbers::{MOST_REPLY_BYTES, SLOT_BYTES};
use crate::random::Random;
use crate::spelling;
use crate::values::{of, text, CAPITALS_AND_DIGITS, DIGITS};

/// The stamp and the reply number that most calls have, those of the worked reply.
pub const STAMP: &str = "20240305101501";
pub const REPLY_NUMBER: &str = "K1";

pub static BAD_STAMPS: &[&str] = &[
    "", "2024", "2024030510150", "202403051015011", "20240305101501.1", "20240305101501+0100", "20240005101501",
    "20241305101501", "20240300101501", "20240332101501", "20240305241501", "20240305106001", "20240305101560",
    "2024030510150a", "a0240305101501", "2024030510+010", "202403051015.1", "2024030510150 ", " 0240305101501",
    "2024030510150\r", "20240305+01001", "2024:305101501",
];

pub fn stamp(random: &mut Random) -> Vec<u8> {
    let edges = ["20240229235959", "00000101000000", "99991231235959", "20240131000000"];
    let clock = random.pick(&["000000", "101501", "235959"]);
    match random.below(15) {
        0 => random.pick(BAD_STAMPS).as_bytes().to_vec(),
        1 => random.pick(&edges).as_bytes().to_vec(),
        2 => of(random, DIGITS, 14),
        3 | 4 => [dates::existing(random).text(), clock.to_string()].concat().into_bytes(),
        5 | 6 => [dates::lacking(random).text(), clock.to_string()].concat().into_bytes(),
        _ => STAMP.as_bytes().to_vec(),
    }
}

pub static BAD_NUMBERS: &[&str] = &[
    "", "k1", "K 1", "K1 ", "K-1", "K|1", "K\r", "ABCDEFGHIJKLMNOPQRSTU", "K1\\", "@", "[", "/", ":", "K\u{80}", "a",
    "Z`",
];

pub fn reply_number(random: &mut Random) -> Vec<u8> {
    match random.below(12) {
        0 => random.pick(BAD_NUMBERS).as_bytes().to_vec(),
        1 => {
            let length = random.pick(&[1, 19, 20, 21]);
            of(random, CAPITALS_AND_DIGITS, length)
        }
        2 => random.pick(&["A", "Z", "0", "9", "AZ09"]).as_bytes().to_vec(),
        _ => REPLY_NUMBER.as_bytes().to_vec(),
    }
}

/// Bytes of that length that were there before; mostly alike, so that they are short when spelled.
pub fn old_bytes(random: &mut Random, length: usize) -> Vec<u8> {
    match random.below(12) {
        0 if length < 200 => (0..length).map(|_| random.below(256) as u8).collect(),
        0 => {
            let mut out = vec![b'.'; length];
            for _ in 0..40 {
                out[random.below(length)] = random.below(256) as u8;
            }
            out
        }
        1 => text(random, length),
        2..=4 => vec![0; length],
        _ => vec![random.below(256) as u8; length],
    }
}

/// A buffer for something of about that length.
pub fn buffer(random: &mut Random, about: usize) -> Vec<u8> {
    let length = match random.below(12) {
        0 => 0,
        1 => random.between(0, about + 10),
        2 | 3 => about.saturating_sub(1),
        4 | 5 => about,
        6 => about + 1,
        _ => MOST_REPLY_BYTES,
    };
    old_bytes(random, length)
}

pub const SLOTS: &[u64] = &[0, 1, 2, 3, 4, 1 << 22, 1 << 32, 1 << 54, (1 << 54) + 1, 1 << 63, u64::MAX];

pub fn book(random: &mut Random) -> Vec<u8> {
    let odd = random.pick(&[0, 1, 1_023, 1_025, 2_047, 3_000, 4_096]);
    let whole = random.pick(&[SLOT_BYTES, SLOT_BYTES, 2 * SLOT_BYTES, 3 * SLOT_BYTES]);
    let length = if random.percent(75) { whole } else { odd };
    old_bytes(random, length)
}

pub fn slot(random: &mut Random, book: &[u8]) -> u64 {
    match random.below(10) {
        0 => random.pick(SLOTS),
        1 => (book.len() / SLOT_BYTES) as u64,
        _ => random.below((book.len() / SLOT_BYTES).max(1)) as u64,
    }
}

/// A group of the message, or one that it does not have.
pub fn group(random: &mut Random, message: &[u8]) -> u64 {
    let count = names(message).iter().filter(|name| **name == b"OBR").count() as u64;
    match random.below(12) {
        0 => 0,
        1 => count + 1,
        2 => random.pick(&[2, 3, 513, 65_536, 65_537, 1 << 32, (1 << 32) + 1, u64::MAX]),
        3 | 4 => count,
        _ => 1 + random.below(count.max(1) as usize) as u64,
    }
}

/// The length of the reply that a message would get; 0 where it gets none.
pub fn reply_length(message: &[u8]) -> usize {
    let mut line = b"reply".to_vec();
    for word in [message, STAMP.as_bytes(), REPLY_NUMBER.as_bytes(), &[0; MOST_REPLY_BYTES]] {
        spelling::word(word, &mut line);
    }
    spelling::written(&spelling::answer(&line)).unwrap_or(0)
}

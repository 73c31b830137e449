//! The corpus: calls gathered line by line.

use crate::lent::{self, REPLY_NUMBER, STAMP};
use crate::numbers::MOST_REPLY_BYTES;
use crate::places::Place;
use crate::slips;
use crate::spelling;

#[derive(Default)]
pub struct Corpus {
    pub lines: Vec<Vec<u8>>,
}

impl Corpus {
    pub fn push(&mut self, entry: &str, message: &[u8], rest: &[u8]) {
        let mut line = entry.as_bytes().to_vec();
        spelling::word(message, &mut line);
        line.extend_from_slice(rest);
        self.lines.push(line);
    }

    pub fn judge(&mut self, message: &[u8]) {
        self.push("judge", message, b"");
    }

    pub fn look(&mut self, message: &[u8], name: &str, numbers: [u64; 5]) {
        self.push("look", message, &Place::new(name, numbers).words());
    }

    /// A text resolved into a buffer of that length, filled with one byte.
    pub fn resolve(&mut self, text: &[u8], room: usize) {
        let mut rest = Vec::new();
        spelling::word(&b".".repeat(room), &mut rest);
        self.push("resolve", text, &rest);
    }

    /// A reply into a buffer of that length, filled with one byte.
    pub fn reply(&mut self, message: &[u8], room: usize) {
        self.reply_with(message, STAMP, REPLY_NUMBER, room);
    }

    /// The same with another stamp and reply number.
    pub fn reply_with(&mut self, message: &[u8], stamp: &str, number: &str, room: usize) {
        let mut rest = Vec::new();
        spelling::word(stamp.as_bytes(), &mut rest);
        spelling::word(number.as_bytes(), &mut rest);
        spelling::word(&b".".repeat(room), &mut rest);
        self.push("reply", message, &rest);
    }

    pub fn file(&mut self, message: &[u8], group: u64, slot: u64, book: &[u8]) {
        let mut rest = Vec::new();
        spelling::number(group, &mut rest);
        spelling::number(slot, &mut rest);
        spelling::word(book, &mut rest);
        self.push("file", message, &rest);
    }

    pub fn read(&mut self, book: &[u8], slot: u64, tag: u64) {
        let mut rest = Vec::new();
        spelling::number(slot, &mut rest);
        spelling::number(tag, &mut rest);
        self.push("read", book, &rest);
    }

    /// Replies into buffers of enough and of one byte too few.
    pub fn replies(&mut self, message: &[u8]) {
        let length = lent::reply_length(message);
        self.reply(message, MOST_REPLY_BYTES);
        self.reply(message, length);
        self.reply(message, length.saturating_sub(1));
    }

    /// Every tag of a slip filed in slot 1, the slot before it, and one that the book does not have.
    pub fn readings(&mut self, message: &[u8], group: u64) {
        if let Some(book) = slips::filed(message, group, 1, &b"#".repeat(3_000)) {
            for tag in 0..=7 {
                self.read(&book, 1, tag);
            }
            self.read(&book, 0, 1);
            self.read(&book, 2, 1);
        }
    }
}

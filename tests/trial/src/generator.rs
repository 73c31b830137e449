//! Random calls. They come in bundles: calls about one message, and some that have none.

use std::collections::BTreeMap;

use crate::damage::{self, Damage};
use crate::draft::Draft;
use crate::lent;
use crate::numbers::SLOT_BYTES;
use crate::places::{self, Place};
use crate::random::Random;
use crate::short::{HEADER, PATIENT};
use crate::slips;
use crate::spelling;
use crate::values::{of, text, ESCAPES, NEAR_ESCAPES};
use crate::{frame, large, leaves, newer, order, valid};

/// A call about the bundle's message.
pub struct Ask {
    pub entry: &'static str,
    /// The words after the message, each with its space.
    pub rest: Vec<u8>,
    /// Whether demand 3 speaks of it.
    pub paired: bool,
}

pub struct Bundle {
    pub message: Vec<u8>,
    pub asks: Vec<Ask>,
    /// Calls that have no message, written out.
    pub others: Vec<Vec<u8>>,
}

/// Bytes that mean something in a call's spelling, or stand for none.
const MISSPELLINGS: &[u8] = b"%*;= 0123456789AFaf\r\t\x7Fx";

/// A header with more bytes has long names in it.
const LONG_HEADER: usize = 300;

pub struct Generator {
    random: Random,
    books: Vec<Vec<u8>>,
    /// How often each kind of message and damage was made.
    pub made: BTreeMap<&'static str, usize>,
}

impl Generator {
    pub fn new(seed: u64) -> Generator {
        Generator { random: Random::new(seed), books: Vec::new(), made: BTreeMap::new() }
    }

    fn count(&mut self, name: &'static str) {
        *self.made.entry(name).or_insert(0) += 1;
    }

    fn damage<T>(&mut self, kinds: &[Damage<T>], thing: &mut T) {
        let (name, _, deed) = damage::choose(&mut self.random, kinds);
        self.count(name);
        deed(&mut self.random, thing);
    }

    /// A message that is accepted, as an older or a newer sender makes it.
    pub fn good_message(&mut self, newer_share: usize) -> Draft {
        let mut draft = valid::draft(&mut self.random);
        if self.random.percent(newer_share) {
            self.count("newer sender");
            newer::add(&mut self.random, &mut draft);
        }
        draft
    }

    fn damaged_message(&mut self) -> Vec<u8> {
        let mut draft = self.good_message(50);
        for _ in 0..self.random.pick(&[1, 1, 1, 1, 2, 2, 3]) {
            if self.random.percent(80) {
                self.damage(leaves::DAMAGES, &mut draft);
            } else {
                self.damage(order::DAMAGES, &mut draft);
            }
        }
        let mut bytes = draft.write();
        if self.random.percent(12) {
            self.damage(frame::EDITS, &mut bytes);
        }
        bytes
    }

    fn edited_message(&mut self) -> Vec<u8> {
        let mut bytes = self.good_message(40).write();
        for _ in 0..self.random.pick(&[1, 1, 1, 2, 4]) {
            self.damage(frame::EDITS, &mut bytes);
        }
        bytes
    }

    /// One or more wrongs of the frame, as the order of the numbers matters.
    fn bad_frame(&mut self) -> Vec<u8> {
        let mut draft = self.good_message(20);
        draft.segments.truncate(self.random.between(1, 6));
        let mut bytes = draft.write();
        for _ in 0..self.random.pick(&[1, 1, 1, 2, 3]) {
            self.damage(frame::DAMAGES, &mut bytes);
        }
        bytes
    }

    fn tiny_message(&mut self) -> Vec<u8> {
        static STARTS: &[&str] =
            &["", "MSH|^~\\&|\r", "MSH|^~\\&|", "MSH|^~\\&\r", "MSH|^~\\&||\r", "MSH|^~\\&|A\r", "MSH\r", HEADER];
        static ENDS: &[&str] =
            &["", "", "PID\r", "PID|\r", "ZZX\r", "ZZX|a\\b\r", "OBR|1\r", "\r", "MSH\r", "PI\r", "NTE", PATIENT];
        let mut out = self.random.pick(STARTS).as_bytes().to_vec();
        for _ in 0..self.random.between(0, 2) {
            out.extend_from_slice(self.random.pick(ENDS).as_bytes());
        }
        out
    }

    fn noise(&mut self) -> Vec<u8> {
        let length = self.random.between(0, 60);
        let set: &[u8] =
            self.random.pick(&[&b"|^~\\&\r"[..], b"MSHPIDOBRX|^~\\&\r", b"\x00\x0A\x0D\x20AZaz09\x7E\x7F\x80\xFF|"]);
        let body = of(&mut self.random, set, length);
        let start: &[u8] = if self.random.one_in(2) { b"MSH|^~\\&|" } else { b"" };
        [start, &body[..], if self.random.one_in(2) { b"\r" } else { b"" }].concat()
    }

    pub fn message(&mut self) -> Vec<u8> {
        let (name, message) = match self.random.below(200) {
            0..=4 => ("large", large::message(&mut self.random)),
            5..=6 => ("none", Vec::new()),
            7..=11 => ("tiny", self.tiny_message()),
            12..=13 => ("noise", self.noise()),
            14..=31 => ("bad frame", self.bad_frame()),
            32..=49 => ("edited", self.edited_message()),
            50..=95 => ("good", self.good_message(75).write()),
            _ => ("damaged", self.damaged_message()),
        };
        self.count(name);
        message
    }

    fn look(&mut self, message: &[u8]) -> Ask {
        let place: Place = places::place(&mut self.random, message);
        Ask { entry: "look", rest: place.words(), paired: places::listed(message, &place) }
    }

    fn reply(&mut self, message: &[u8]) -> Ask {
        let mut rest = Vec::new();
        spelling::word(&lent::stamp(&mut self.random), &mut rest);
        spelling::word(&lent::reply_number(&mut self.random), &mut rest);
        let about = if self.random.one_in(3) { lent::reply_length(message) } else { self.random.between(90, 260) };
        spelling::word(&lent::buffer(&mut self.random, about), &mut rest);
        Ask { entry: "reply", rest, paired: true }
    }

    fn file(&mut self, message: &[u8]) -> Ask {
        let mut rest = Vec::new();
        spelling::number(lent::group(&mut self.random, message), &mut rest);
        let book = lent::book(&mut self.random);
        spelling::number(lent::slot(&mut self.random, &book), &mut rest);
        spelling::word(&book, &mut rest);
        Ask { entry: "file", rest, paired: true }
    }

    fn resolve(&mut self) -> Vec<u8> {
        let mut whole = Vec::new();
        for _ in 0..self.random.between(0, 5) {
            match self.random.below(8) {
                0 => whole.extend_from_slice(self.random.pick(NEAR_ESCAPES).as_bytes()),
                1..=3 => whole.extend_from_slice(self.random.pick(ESCAPES).as_bytes()),
                4 => whole.push(self.random.below(256) as u8),
                _ => {
                    let length = if self.random.one_in(40) {
                        self.random.between(100, 9_000)
                    } else {
                        self.random.between(1, 9)
                    };
                    whole.extend(text(&mut self.random, length));
                }
            }
        }
        let pairs = whole.iter().filter(|byte| **byte == b'\\').count() / 2;
        let mut line = b"resolve".to_vec();
        spelling::word(&whole, &mut line);
        let about = whole.len() - 2 * pairs.min(whole.len() / 2);
        spelling::word(&lent::buffer(&mut self.random, about), &mut line);
        line
    }

    /// A book with a slip in it, from a few that are kept and renewed.
    fn book(&mut self) -> Vec<u8> {
        if self.books.len() < 8 || self.random.one_in(12) {
            let message = self.good_message(20).write();
            let mut book = lent::old_bytes(&mut self.random, 2 * SLOT_BYTES);
            for slot in 0..2 {
                let group = lent::group(&mut self.random, &message);
                book = slips::filed(&message, group, slot, &book).unwrap_or(book);
            }
            self.books.push(book);
        }
        if self.books.len() > 24 {
            self.books.remove(0);
        }
        let at = self.random.below(self.books.len());
        self.books[at].clone()
    }

    fn read(&mut self) -> Vec<u8> {
        let good = self.book();
        let mut book = slips::damaged_book(&mut self.random, &good);
        if self.random.one_in(20) {
            book = lent::book(&mut self.random);
        }
        let mut line = b"read".to_vec();
        spelling::word(&book, &mut line);
        let slot = lent::slot(&mut self.random, &book);
        spelling::number(slot, &mut line);
        let tag = if self.random.one_in(3) { self.random.pick(slips::TAGS) } else { self.random.between(1, 6) as u64 };
        spelling::number(tag, &mut line);
        line
    }

    fn no_call(&mut self) -> Vec<u8> {
        self.random
            .pick(&["", "judge", "what =x", "look =MSH =PID 1 1", "read = 0", "judge x", "file = 1 0", "Judge ="])
            .as_bytes()
            .to_vec()
    }

    /// A call whose spelling is damaged; it may still be one.
    fn misspelt(&mut self) -> Vec<u8> {
        let mut line = if self.random.one_in(2) { self.resolve() } else { self.read() };
        for _ in 0..self.random.between(1, 3) {
            let at = self.random.below(line.len());
            let byte = self.random.pick(MISSPELLINGS);
            match self.random.below(3) {
                0 => line[at] = byte,
                1 => line.insert(at, byte),
                _ if line.len() > 1 => drop(line.remove(at)),
                _ => line.push(byte),
            }
        }
        line
    }

    /// Calls that stand by themselves.
    fn others(&mut self) -> Vec<Vec<u8>> {
        let mut others = Vec::new();
        if self.random.percent(70) {
            others.push(self.read());
        }
        if self.random.percent(45) {
            others.push(self.resolve());
        }
        if self.random.one_in(200) {
            others.push(self.no_call());
        }
        if self.random.one_in(20) {
            others.push(self.misspelt());
        }
        others
    }

    /// Half of the messages are judged only, as judging has the most rules. One with a long header is replied to, as
    /// replies copy from there.
    pub fn bundle(&mut self) -> Bundle {
        let message = self.message();
        let mut asks = vec![Ask { entry: "judge", rest: Vec::new(), paired: true }];
        let long = message.iter().position(|byte| *byte == b'\r').map_or(false, |length| length > LONG_HEADER);
        if !long && self.random.one_in(2) {
            return Bundle { message, asks, others: Vec::new() };
        }
        let looks = if long { 1 } else { self.random.pick(&[1, 1, 2, 3]) };
        for _ in 0..looks {
            asks.push(self.look(&message));
        }
        if long || self.random.percent(75) {
            asks.push(self.reply(&message));
        }
        if self.random.percent(75) {
            asks.push(self.file(&message));
        }
        Bundle { message, asks, others: self.others() }
    }
}

impl Bundle {
    /// The calls of the bundle, each a line without its end.
    pub fn lines(&self) -> Vec<Vec<u8>> {
        let mut spelled = Vec::new();
        spelling::string(&self.message, &mut spelled);
        let mut lines: Vec<Vec<u8>> = self.asks.iter().map(|ask| ask.line(&spelled)).collect();
        lines.extend(self.others.iter().cloned());
        lines
    }
}

impl Ask {
    pub fn line(&self, spelled: &[u8]) -> Vec<u8> {
        [self.entry.as_bytes(), b" ", spelled, &self.rest[..]].concat()
    }
}

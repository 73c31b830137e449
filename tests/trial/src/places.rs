//! Places to be looked up.

use crate::draft::names;
use crate::profile::{fields_of, is_listed, leaves, NAMES, TYPES};
use crate::random::Random;
use crate::spelling;

#[derive(Clone)]
pub struct Place {
    pub name: Vec<u8>,
    /// Occurrence, field, repetition, component, subcomponent.
    pub numbers: [u64; 5],
}

impl Place {
    pub fn new(name: &str, numbers: [u64; 5]) -> Place {
        Place { name: name.as_bytes().to_vec(), numbers }
    }

    /// The words of a call that follow the message.
    pub fn words(&self) -> Vec<u8> {
        let mut out = Vec::new();
        spelling::word(&self.name, &mut out);
        for number in self.numbers {
            spelling::number(number, &mut out);
        }
        out
    }
}

/// Whether demand 3 speaks of a place. In OBX-5 the type decides, and that is looked up.
pub fn listed(message: &[u8], place: &Place) -> bool {
    let [occurrence, field, _, component, subcomponent] = place.numbers;
    let kind = if place.name == b"OBX" && field == 5 { kind(message, occurrence) } else { "ST" };
    is_listed(&place.name, field, component, subcomponent, kind)
}

fn kind(message: &[u8], occurrence: u64) -> &'static str {
    let mut line = b"look".to_vec();
    spelling::word(message, &mut line);
    line.extend(Place::new("OBX", [occurrence, 2, 1, 1, 1]).words());
    let named = spelling::last_string(&spelling::answer(&line)).unwrap_or_default();
    TYPES.iter().find(|kind| kind.as_bytes() == named).copied().unwrap_or("ST")
}

pub const WIDE: &[u64] = &[
    0,
    1,
    2,
    3,
    254,
    255,
    256,
    257,
    511,
    512,
    513,
    65_534,
    65_535,
    65_536,
    65_537,
    1 << 31,
    1 << 32,
    (1 << 32) + 1,
    1 << 63,
    u64::MAX - 1,
    u64::MAX,
];

pub static BAD_NAMES: &[&str] = &[
    "", "P", "PI", "PIDX", "pid", "Pid", "PId", "1ID", "PI ", "PI|", "OB\r", "   ", "MSH|", "A.B", "0AA", "AA^", "@AA",
    "AA[", "A:A", "A/A",
];

/// One of the message's own names and how often it has it.
fn present(random: &mut Random, message: &[u8]) -> (Vec<u8>, usize) {
    let all = names(message);
    let name = random.pick(&all).to_vec();
    let count = all.iter().filter(|other| **other == &name[..]).count();
    (name, count)
}

/// A place that the message may well have text at.
fn likely(random: &mut Random, message: &[u8]) -> Place {
    let (name, count) = present(random, message);
    let occurrence = random.between(1, count.max(1)) as u64;
    let fields = fields_of(&name);
    if fields.is_empty() || random.one_in(6) {
        let numbers =
            [occurrence, random.between(1, 14) as u64, 1, random.between(1, 3) as u64, random.between(1, 2) as u64];
        return Place { name, numbers };
    }
    let field = random.pick(fields);
    let kind = if field.kind == "*" { random.pick(TYPES) } else { field.kind };
    let leaf = random.pick(leaves(kind));
    let repetition = if random.one_in(4) { random.between(1, field.most + 1) } else { 1 };
    let numbers = [occurrence, field.number as u64, repetition as u64, leaf.component as u64, leaf.subcomponent as u64];
    Place { name, numbers }
}

/// The two separators' own fields, and those beside them.
fn header(random: &mut Random) -> Place {
    let mut numbers = [1, random.between(1, 13) as u64, 1, 1, 1];
    if random.one_in(2) {
        numbers[1] = random.between(1, 2) as u64;
    }
    if random.one_in(2) {
        numbers[random.between(2, 4)] = random.between(1, 4) as u64;
    }
    Place::new("MSH", numbers)
}

pub fn place(random: &mut Random, message: &[u8]) -> Place {
    let mut place = match random.below(10) {
        0..=6 => likely(random, message),
        7 => header(random),
        8 => Place::new(random.pick(NAMES), [1, 1, 1, 1, 1]),
        _ => Place::new(random.pick(&["ZZX", "ZZZ", "PV1", "A1B", "Z00"]), [1, 1, 1, 1, 1]),
    };
    if random.one_in(9) {
        place.numbers[random.below(5)] = random.pick(WIDE);
    }
    if random.one_in(5) {
        let at = random.below(5);
        place.numbers[at] = (place.numbers[at] % 1_000).wrapping_add(random.below(3) as u64);
    }
    if random.one_in(25) {
        place.name = random.pick(BAD_NAMES).as_bytes().to_vec();
    }
    place
}

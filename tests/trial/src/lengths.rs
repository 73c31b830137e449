//! Every edge of the rule that lengths are counted after resolving, once, on short messages: in each listed leaf, more
//! closely in one leaf of each limit, in what replies copy, and in slips.

use crate::corpus::Corpus;
use crate::draft::Draft;
use crate::lent::{self, STAMP};
use crate::numbers::{MOST_REPLY_BYTES, SLOT_BYTES};
use crate::profile::{leaves, limit, type_limit, Field, Leaf, Simple, FIELDS, TYPES};
use crate::short::{GROUP, HEADER, KIN, NOTE, OBSERVATION, ORDER, PATIENT, START};
use crate::slips::slip;
use crate::tour;
use crate::values::{BAD_ESCAPES, ESCAPES};
use crate::worked::segment;

/// A reply number of the greatest length.
const LONG_NUMBER: &str = "NUMBER7890NUMBER7890";
/// A name in which each ampersand counts one: 14 bytes.
const PRACTICE: &str = "R \\T\\ D \\T\\ K Care";
const PRACTICE_BYTES: usize = 14;

/// A listed leaf with its field and the type that the field has.
#[derive(Clone, Copy)]
pub struct Spot {
    pub field: &'static Field,
    kind: &'static str,
    pub leaf: &'static Leaf,
}

impl Spot {
    pub fn most(&self) -> usize {
        limit(self.field, self.leaf.simple)
    }

    /// A short message with a text in the leaf; the field's other leaves are filled, so that nothing else is wrong.
    pub fn with(&self, text: &str) -> Vec<u8> {
        let optional = [("NK1", KIN), ("ORC", ORDER), ("NTE", NOTE)];
        let has = |line: &str| optional.iter().all(|(name, other)| *other != line || *name == self.field.name);
        let lines = [HEADER, PATIENT, KIN, ORDER, GROUP, OBSERVATION, NOTE];
        let lines = lines.iter().filter(|line| has(line)).map(|line| segment(line.trim_end()));
        let mut draft = Draft { segments: lines.collect() };
        let at = draft.named(self.field.name.as_bytes())[0];
        let segment = &mut draft.segments[at];
        if self.field.kind == "*" {
            *segment.field(2) = self.kind.as_bytes().to_vec();
        }
        *segment.field(self.field.number) = tour::text(self.field, self.kind);
        segment.put(self.field.number, [1, self.leaf.component, self.leaf.subcomponent], text.as_bytes());
        draft.write()
    }
}

/// Every listed leaf; those of OBX-5 by each type.
pub fn spots() -> Vec<Spot> {
    let mut spots = Vec::new();
    for field in FIELDS {
        let kinds = if field.kind == "*" { TYPES } else { std::slice::from_ref(&field.kind) };
        for kind in kinds {
            spots.extend(leaves(kind).iter().map(|leaf| Spot { field, kind, leaf }));
        }
    }
    spots
}

fn spot(name: &str, number: usize, component: usize, kind: &str) -> Spot {
    let fits = |spot: &&Spot| {
        (spot.field.name, spot.field.number, spot.leaf.component) == (name, number, component) && spot.kind == kind
    };
    *spots().iter().find(fits).expect("a listed leaf")
}

/// So many escapes, of all five in turn from one of them on.
fn escapes(from: usize, count: usize) -> String {
    (from..from + count).map(|at| ESCAPES[at % ESCAPES.len()]).collect()
}

fn plain(count: usize) -> String {
    "1".repeat(count)
}

/// Texts at a limit and one byte over it, escapes altogether and in part, and with a bad escape in one that is too long.
pub fn about(from: usize, most: usize) -> [String; 6] {
    [
        escapes(from, most),
        escapes(from, most + 1),
        [plain(most - 1), escapes(from, 1)].concat(),
        [plain(most), escapes(from, 1)].concat(),
        [escapes(from, 1), plain(most), "\\".to_string()].concat(),
        [escapes(from, most / 2), "\\X\\".to_string(), escapes(from, most / 2 + 1)].concat(),
    ]
}

/// The same of each escape by itself, and with few and many of them at the front, in the middle and at the end.
fn closely(most: usize) -> Vec<String> {
    let mut texts = Vec::new();
    for escape in ESCAPES {
        texts.extend([escape.repeat(most), escape.repeat(most + 1)]);
    }
    for length in [most, most + 1] {
        for count in [1, most - 1] {
            let rest = length - count;
            texts.push([escapes(0, count), plain(rest)].concat());
            texts.push([plain(rest), escapes(1, count)].concat());
            texts.push([plain(rest / 2), escapes(2, count), plain(rest - rest / 2)].concat());
        }
        // a mark that was an escape, before letters that would make another one of it
        texts.push(["\\E\\T", &plain(length - 3), "\\E\\"].concat());
        texts.push(["\\E\\\\T\\", &plain(length - 2)].concat());
    }
    // too long as written, by one byte and by two
    texts.push([escapes(3, 1), plain(most - 2)].concat());
    texts.push([plain(most / 3), escapes(4, most - most / 3 - 1)].concat());
    texts
}

/// Bad escapes in texts about a limit: at the front, in the middle and at the end.
fn bad(most: usize) -> Vec<String> {
    let mut texts = Vec::new();
    for (at, bad) in BAD_ESCAPES.iter().enumerate() {
        texts.push(match at % 3 {
            0 => [&plain(most.saturating_sub(bad.len())), *bad].concat(),
            1 => [*bad, &plain(most + 1)].concat(),
            _ => [&escapes(at, most / 2), *bad, &plain(most / 2 + 1)].concat(),
        });
        texts.push([&plain(most + 1), *bad].concat());
    }
    texts.push(["\\", &escapes(0, most)].concat());
    texts.push([&escapes(0, most), "\\"].concat());
    texts.push([&escapes(0, most + 1), "\\"].concat());
    texts.push([&escapes(0, most), "F\\"].concat());
    texts
}

/// One leaf of each limit; of those with a form and with a list too.
fn chosen() -> Vec<Spot> {
    vec![
        spot("PID", 1, 1, "SI"),
        spot("OBX", 2, 1, "ID"),
        spot("OBX", 5, 1, "NM"),
        spot("OBX", 5, 1, "TM"),
        spot("OBR", 7, 1, "TS"),
        spot("MSH", 11, 1, "PT"),
        spot("OBX", 4, 1, "ST"),
        spot("OBX", 7, 1, "ST"),
        spot("OBR", 4, 2, "CE"),
    ]
}

fn add_leaves(corpus: &mut Corpus) {
    for (at, spot) in spots().iter().enumerate() {
        for text in about(at, spot.most()) {
            corpus.judge(&spot.with(&text));
        }
    }
    for spot in chosen() {
        for text in closely(spot.most()).iter().chain(&bad(spot.most())) {
            corpus.judge(&spot.with(text));
        }
    }
    // two escapes in an SI are six bytes as written
    for text in ["\\F\\", "\\F\\\\S\\", "1\\T\\2", "12\\T\\", "12\\T\\3", "123\\T\\", "123\\T\\4", "1234\\T\\"] {
        corpus.judge(&spot("NTE", 1, 1, "SI").with(text));
        corpus.judge(&spot("OBR", 1, 1, "SI").with(text));
    }
}

/// The practice in fields that it just fits, and with one byte more.
fn add_practice(corpus: &mut Corpus) {
    for place in [("MSH", 4, 1, "HD"), ("OBX", 4, 1, "ST"), ("OBX", 8, 1, "IS"), ("PID", 3, 5, "CX")] {
        let spot = spot(place.0, place.1, place.2, place.3);
        for more in [0, 1, spot.most() - PRACTICE_BYTES, spot.most() - PRACTICE_BYTES + 1] {
            let message = spot.with(&[PRACTICE, &"x".repeat(more)].concat());
            corpus.judge(&message);
            if spot.field.name == "MSH" {
                corpus.reply(&message, MOST_REPLY_BYTES);
            }
        }
    }
}

/// A leaf of a later repetition or a later segment, and parts beside a leaf that are not listed and so have no length.
fn add_beside(corpus: &mut Corpus) {
    let (long, good, bad) = (escapes(0, 21), escapes(1, 20), escapes(2, 21) + "\\");
    for (name, number, later, shape) in [
        ("PID", 3, 25, "A~B^^^@"),
        ("PID", 3, 25, "A~B~C^^^^@"),
        ("PID", 3, 25, "A^@^@^H"),
        ("PID", 3, 25, "A^^^H&&&@"),
        ("PID", 5, 25, "A~B^^^^^^@"),
        ("OBX", 8, 14, "A~B~@"),
        ("OBX", 8, 14, "@~A~B~C~D~E"),
        ("OBX", 8, 14, "A&@^@"),
        ("MSH", 4, 12, "L^1^@"),
        ("MSH", 4, 12, "L&@^1^x^@"),
    ] {
        for text in [&long, &good, &bad] {
            let mut draft = tour::full("CE");
            let at = draft.named(name.as_bytes())[0];
            *draft.segments[at].field(number) = shape.replace('@', text).into_bytes();
            corpus.judge(&draft.write());
            // the same with a later fault, which is told where the leaf is not too long
            *draft.segments[at].field(later) = b"?".to_vec();
            corpus.judge(&draft.write());
        }
    }
    for lines in [
        &["OBX|1||P||||||||F\r", "OBX|2||P|@|||||||F\r"][..],
        &["NTE|||n\r", "NTE||@\r"],
        &["OBR|1||F|P|||2024\r", "OBR|1||F^@|P|||2024\r", "OBX|2||P||||||||F\r"],
        &["OBX|1||P|@|||||||F\r", "OBX|2||P|@|||||||F\r"],
    ] {
        for text in [&long, &good, &bad] {
            corpus.judge(&[START, &lines.concat().replace('@', text)].concat().into_bytes());
        }
    }
}

/// What a reply copies, leaf by leaf: copied as it is written, or left empty.
fn add_senders(corpus: &mut Corpus) {
    for number in 3..=6 {
        for leaf in leaves("HD") {
            let spot = spot("MSH", number, leaf.component, "HD");
            for text in about(number + leaf.component, spot.most()) {
                corpus.reply(&spot.with(&text), MOST_REPLY_BYTES);
            }
        }
    }
    let (long, good) = (escapes(0, 21), escapes(1, 20));
    let (longer, fitting) = (escapes(2, 200), escapes(3, 199));
    for hd in [
        [&long[..], &longer, &good],
        [&long, &fitting, &long],
        [&good, &longer, &good],
        [&good, &fitting, &long],
        [&long, &longer, &long],
        ["", &longer, ""],
        ["\\", &fitting, "\\F\\F\\"],
    ] {
        let mut draft = tour::full("CE");
        for number in 3..=6 {
            *draft.segments[0].field(number) = hd.join("^").into_bytes();
        }
        corpus.reply(&draft.write(), MOST_REPLY_BYTES);
    }
}

fn with_control(text: &str) -> Vec<u8> {
    spot("MSH", 10, 1, "ST").with(text)
}

/// The control number, judged and in a reply; and refusal 13 in its turn.
fn add_controls(corpus: &mut Corpus) {
    let most = 20;
    for text in closely(most) {
        corpus.judge(&with_control(&text));
        corpus.reply(&with_control(&text), MOST_REPLY_BYTES);
    }
    for text in bad(most).iter().chain(&about(1, most)).chain(&about(3, most)) {
        corpus.reply(&with_control(text), MOST_REPLY_BYTES);
    }
    for text in [escapes(0, most), escapes(0, most + 1), escapes(0, most) + "\\", escapes(0, 7)] {
        let message = with_control(&text);
        for (stamp, number, room) in [("2024", "k1", 0), (STAMP, "k1", 0), (STAMP, "K1", 0), (STAMP, "K1", 100)] {
            corpus.reply_with(&message, stamp, number, room);
        }
        corpus.file(&message, 1, 0, &[b'#'; SLOT_BYTES]);
        corpus.look(&message, "MSH", [1, 10, 1, 1, 1]);
    }
}

/// A message whose reply copies all that it can, each at its limit and all of one escape.
pub fn with_long_header(escape: &str) -> Draft {
    let mut draft = Draft { segments: [HEADER, PATIENT, GROUP].iter().map(|line| segment(line.trim_end())).collect() };
    let hd: Vec<String> = leaves("HD").iter().map(|leaf| escape.repeat(type_limit(leaf.simple))).collect();
    for number in 3..=6 {
        *draft.segments[0].field(number) = hd.join("^").into_bytes();
    }
    *draft.segments[0].field(10) = escape.repeat(20).into_bytes();
    draft
}

/// The longest replies, accepted and with each fault that has a text of its own, about their length and others.
fn add_longest(corpus: &mut Corpus) {
    let faults = [(11, "P"), (11, "X"), (9, "X^R01"), (9, "ORU^X"), (12, "X"), (7, ""), (7, "x"), (9, "ORU^R01~")];
    for (at, (number, text)) in faults.iter().enumerate() {
        let mut draft = with_long_header(ESCAPES[at % ESCAPES.len()]);
        *draft.segments[0].field(*number) = text.as_bytes().to_vec();
        let message = draft.write();
        let length = lent::reply_length(&message) + LONG_NUMBER.len() - lent::REPLY_NUMBER.len();
        for room in [length, length - 1, MOST_REPLY_BYTES] {
            corpus.reply_with(&message, STAMP, LONG_NUMBER, room);
        }
        // the greatest length of a reply by the old rule
        for room in [MOST_REPLY_BYTES - 1, 1_201, 1_200, 1_199, 0] {
            if at < 2 {
                corpus.reply_with(&message, STAMP, LONG_NUMBER, room);
            }
        }
        corpus.judge(&message);
    }
}

/// The five values that a slip holds: their escapes resolved they fit, however long they are as written.
fn add_slips(corpus: &mut Corpus) {
    let most = type_limit(Simple::Short);
    let filled = |control: &str, text: &str| {
        let mut draft = Draft {
            segments: [HEADER, PATIENT, GROUP, OBSERVATION].iter().map(|line| segment(line.trim_end())).collect(),
        };
        *draft.segments[0].field(10) = control.as_bytes().to_vec();
        for (at, number) in [(1, 3), (2, 2), (2, 3), (2, 4)] {
            *draft.segments[at].field(number) = text.as_bytes().to_vec();
        }
        draft.write()
    };
    for escape in ESCAPES {
        let message = filled(&escape.repeat(20), &escape.repeat(most));
        corpus.judge(&message);
        corpus.file(&message, 1, 1, &[b'#'; 2 * SLOT_BYTES]);
        if ["\\T\\", "\\E\\"].contains(escape) {
            corpus.readings(&message, 1);
        }
    }
    let mixed = filled(&escapes(0, 20), &escapes(2, most));
    corpus.file(&mixed, 1, 0, &[b'#'; SLOT_BYTES]);
    corpus.readings(&mixed, 1);
    let few = filled(&[&plain(19), "\\E\\"].concat(), &["\\E\\", &plain(most - 1)].concat());
    corpus.file(&few, 1, 0, &[b'#'; SLOT_BYTES]);
    corpus.readings(&few, 1);
    for (name, number, kind) in [("PID", 3, "CX"), ("OBR", 2, "EI"), ("OBR", 3, "EI"), ("OBR", 4, "CE")] {
        for text in about(number, most) {
            corpus.file(&spot(name, number, 1, kind).with(&text), 1, 0, &[b'#'; SLOT_BYTES]);
        }
    }
}

/// Slips to be read: what a slip holds is resolved, so its bytes are counted as they stand, also where they look like
/// escapes.
fn add_readings(corpus: &mut Corpus) {
    let good: Vec<(u8, Vec<u8>)> = (1..=6).map(|tag| (tag, if tag < 6 { vec![b'a'; 2] } else { vec![0, 1] })).collect();
    for at in 0..5 {
        let most = if at == 0 { 20 } else { type_limit(Simple::Short) };
        for length in [most, most + 1, 3 * most] {
            for text in [escapes(at, length), "\\".repeat(length)] {
                let mut fields = good.clone();
                fields[at].1 = text.as_bytes()[..length].to_vec();
                corpus.read(&slip(&fields), 0, at as u64 + 1);
            }
        }
    }
}

/// Such texts looked up, which gives them as written, and resolved.
fn add_texts(corpus: &mut Corpus) {
    for (place, count) in [(("OBX", 7, 1, "ST"), 60), (("OBR", 4, 2, "CE"), 199), (("NTE", 3, 1, "FT"), 4_096)] {
        let (name, number, component, kind) = place;
        for text in [escapes(0, count), escapes(0, count + 1)] {
            let message = spot(name, number, component, kind).with(&text);
            corpus.look(&message, name, [1, number as u64, 1, component as u64, 1]);
            for room in [count, count + 1] {
                corpus.resolve(text.as_bytes(), room);
            }
        }
    }
}

pub fn add(corpus: &mut Corpus) {
    add_leaves(corpus);
    add_practice(corpus);
    add_beside(corpus);
    add_senders(corpus);
    add_controls(corpus);
    add_longest(corpus);
    add_slips(corpus);
    add_readings(corpus);
    add_texts(corpus);
}

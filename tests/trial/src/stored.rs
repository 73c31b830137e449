//! The calls that are stored: worked messages, samples, the greatest sizes, the tour, the edges, days and lengths, random
//! ones.

use std::fs;
use std::path::PathBuf;

use crate::corpus::Corpus;
use crate::days;
use crate::draft::names;
use crate::edges;
use crate::generator::Generator;
use crate::large;
use crate::lengths;
use crate::lent;
use crate::numbers::{MOST_BYTES, MOST_REPLY_BYTES, MOST_SEGMENTS, SLOT_BYTES};
use crate::profile::fields_of;
use crate::slips;
use crate::tour;
use crate::worked;

const RANDOM_CALLS: usize = 3_000;
/// Longer samples get fewer calls, as they would fill the corpus otherwise.
const LONG_SAMPLE: usize = 5_000;

fn add_worked(corpus: &mut Corpus) {
    for (message, _) in worked::messages() {
        corpus.judge(&message);
        corpus.look(&message, "OBX", [1, 5, 1, 1, 1]);
        corpus.look(&message, "MSH", [1, 9, 1, 1, 1]);
        corpus.look(&message, "ZZX", [1, 1, 1, 1, 1]);
        corpus.replies(&message);
        corpus.file(&message, 1, 0, &[0; SLOT_BYTES]);
        corpus.file(&message, 2, 0, &[0; SLOT_BYTES]);
        corpus.readings(&message, 1);
    }
}

/// Places that samples are looked up at; the first few are for long samples too.
static LOOKS: &[(&str, [u64; 5])] = &[
    ("PID", [1, 11, 1, 1, 1]),
    ("OBX", [2, 5, 1, 1, 1]),
    ("PID", [1, 3, 1, 4, 2]),
    ("OBR", [2, 3, 1, 1, 1]),
    ("MSH", [1, 1, 1, 1, 1]),
    ("MSH", [1, 4, 1, 1, 1]),
    ("MSH", [1, 9, 1, 2, 1]),
    ("MSH", [1, 10, 1, 1, 1]),
    ("PID", [1, 3, 1, 1, 1]),
    ("PID", [1, 5, 1, 2, 1]),
    ("NK1", [1, 3, 1, 1, 1]),
    ("ORC", [1, 1, 1, 1, 1]),
    ("OBR", [1, 4, 1, 2, 1]),
    ("NTE", [1, 3, 1, 1, 1]),
];

/// A few texts of a message: those with an escape first, then long ones.
fn texts(message: &[u8]) -> Vec<Vec<u8>> {
    let mut all: Vec<&[u8]> = message.split(|byte| b"|\r".contains(byte)).filter(|text| !text.is_empty()).collect();
    all.sort_by_key(|text| (!text.contains(&b'\\'), std::cmp::Reverse(text.len())));
    all.iter().take(3).map(|text| text.to_vec()).collect()
}

/// A sample under the header of M: most samples have a fault in their own, so that nothing after it is judged.
fn under_good_header(message: &[u8]) -> Vec<u8> {
    let mut out = Vec::new();
    worked::m().segments[0].write(&mut out);
    out.extend_from_slice(message.splitn(2, |byte| *byte == b'\r').nth(1).unwrap_or(b""));
    out
}

fn add_body(corpus: &mut Corpus, message: &[u8]) {
    let message = under_good_header(message);
    if lent::reply_length(&message) > 0 {
        corpus.judge(&message);
        if message.len() < LONG_SAMPLE {
            corpus.reply(&message, MOST_REPLY_BYTES);
            corpus.file(&message, 1, 1, &b"#".repeat(2 * SLOT_BYTES));
            corpus.readings(&message, 1);
        }
    }
}

fn add_sample(corpus: &mut Corpus, message: &[u8]) {
    corpus.judge(message);
    let long = message.len() > LONG_SAMPLE;
    // of a long one whose frame is refused, more calls would tell nothing more
    let refused = long && lent::reply_length(message) == 0;
    let looks = if refused { 1 } else { LOOKS.len() };
    for (name, numbers) in &LOOKS[..if long { looks.min(2) } else { looks }] {
        corpus.look(message, name, *numbers);
    }
    for text in texts(message) {
        corpus.resolve(&text, MOST_REPLY_BYTES);
    }
    if refused {
        corpus.reply(message, MOST_REPLY_BYTES);
    } else {
        corpus.replies(message);
    }
    let accepted = slips::filed(message, 1, 0, &[0; SLOT_BYTES]).is_some();
    for group in if long && !accepted { 1..=1 } else { 0..=2 } {
        corpus.file(message, group, group, &b"#".repeat(4 * SLOT_BYTES));
    }
    corpus.readings(message, 1);
}

fn add_samples(corpus: &mut Corpus, folder: &str) -> Result<(), String> {
    let told = |error: std::io::Error| format!("{}: {}", folder, error);
    let mut paths: Vec<PathBuf> = Vec::new();
    for entry in fs::read_dir(folder).map_err(told)? {
        paths.push(entry.map_err(told)?.path());
    }
    paths.retain(|path| path.extension().map_or(false, |end| end == "hl7"));
    paths.sort();
    if paths.is_empty() {
        return Err(format!("{} has no .hl7 files", folder));
    }
    for path in paths {
        let message = fs::read(&path).map_err(told)?;
        add_sample(corpus, &message);
        add_body(corpus, &message);
    }
    Ok(())
}

fn add_size(corpus: &mut Corpus, message: &[u8]) {
    let all = names(message);
    let last = String::from_utf8_lossy(all[all.len() - 1]).into_owned();
    let count = all.iter().filter(|name| **name == last.as_bytes()).count() as u64;
    let field = fields_of(last.as_bytes()).last().map_or(1, |field| field.number) as u64;
    corpus.judge(message);
    corpus.look(message, &last, [count, field, 1, 1, 1]);
    corpus.reply(message, MOST_REPLY_BYTES);
    let groups = all.iter().filter(|name| **name == b"OBR").count() as u64;
    corpus.file(message, groups, 0, &[0; SLOT_BYTES]);
}

fn add_sizes(corpus: &mut Corpus) {
    // too many notes and unlisted segments get every call, the longer ones are judged
    for (row, (_, line, accepted)) in large::MANY.iter().enumerate() {
        for segments in [MOST_SEGMENTS, MOST_SEGMENTS + 1] {
            let message = large::many(line, segments);
            if row < 2 || (*accepted && segments == MOST_SEGMENTS) {
                add_size(corpus, &message);
            } else {
                corpus.judge(&message);
            }
        }
    }
    for row in 0..large::LONG.len() {
        for length in [MOST_BYTES, MOST_BYTES + 1] {
            add_size(corpus, &large::long(row, length));
        }
    }
    for length in [MOST_BYTES, MOST_BYTES + 1] {
        add_size(corpus, &large::notes(length));
        add_size(corpus, &large::header(length, b'x'));
    }
    // the greatest numbers that a place may have, with text there and without
    let repeated = large::long(large::REPETITIONS, MOST_BYTES);
    for repetition in [1, 65_400, 65_428, 65_429, 65_430, 65_535, 65_536] {
        corpus.look(&repeated, "OBX", [1, 10, repetition, 1, 1]);
    }
    let fields = large::long(large::FIELDS, MOST_BYTES);
    for field in [2, 255, 256, 65_000] {
        corpus.look(&fields, "NTE", [1, field, 1, 1, 1]);
    }
}

/// All are judged; those altered where a reply or a slip copies from are replied to and filed too.
fn add_tour(corpus: &mut Corpus) {
    for (field, message) in tour::messages() {
        corpus.judge(&message);
        match (field.name, field.number) {
            ("MSH", 3..=6) | ("MSH", 10..=11) => corpus.reply(&message, MOST_REPLY_BYTES),
            ("PID", 3) | ("OBR", 2..=4) => corpus.file(&message, 1, 0, &[b'#'; SLOT_BYTES]),
            _ => (),
        }
    }
}

fn add_random(corpus: &mut Corpus, seed: u64) {
    let mut generator = Generator::new(seed);
    let wanted = corpus.lines.len() + RANDOM_CALLS;
    while corpus.lines.len() < wanted {
        corpus.lines.extend(generator.bundle().lines());
    }
}

pub fn make(samples: &str, seed: u64) -> Result<Corpus, String> {
    let mut corpus = Corpus::default();
    add_worked(&mut corpus);
    add_samples(&mut corpus, samples)?;
    add_sizes(&mut corpus);
    add_tour(&mut corpus);
    edges::add(&mut corpus);
    days::add(&mut corpus);
    lengths::add(&mut corpus);
    add_random(&mut corpus, seed);
    for line in ["judge", "what =x", "look =MSH =PID 1 1"] {
        corpus.lines.push(line.as_bytes().to_vec());
    }
    Ok(corpus)
}

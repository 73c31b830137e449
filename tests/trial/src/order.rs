//! Damage to the succession of a draft's segments. A draft keeps one segment at least.

use crate::damage::Damage;
use crate::draft::{Draft, Segment};
use crate::newer::UNLISTED;
use crate::profile::NAMES;
use crate::random::Random;
use crate::valid::segment;

fn any(random: &mut Random, draft: &Draft) -> usize {
    random.below(draft.segments.len())
}

/// Any segment but the header, where there is another.
fn later(random: &mut Random, draft: &Draft) -> usize {
    if draft.segments.len() > 1 {
        random.between(1, draft.segments.len() - 1)
    } else {
        0
    }
}

fn drop_one(random: &mut Random, draft: &mut Draft) {
    if draft.segments.len() > 1 {
        let at = later(random, draft);
        draft.segments.remove(at);
    }
}

fn swap(random: &mut Random, draft: &mut Draft) {
    let one = later(random, draft);
    let other = later(random, draft);
    draft.segments.swap(one, other);
}

fn double(random: &mut Random, draft: &mut Draft) {
    let from = later(random, draft);
    let to = if random.one_in(2) { from } else { later(random, draft) };
    let copy = draft.segments[from].clone();
    draft.segments.insert(to, copy);
}

/// A listed segment where it may or may not stand.
fn insert(random: &mut Random, draft: &mut Draft) {
    let name = random.pick(&NAMES[1..]);
    let at = random.between(1, draft.segments.len());
    let extra = segment(random, name);
    draft.segments.insert(at, extra);
}

fn bare(random: &mut Random, draft: &mut Draft) {
    let at = later(random, draft);
    draft.segments[at].fields.clear();
}

pub static NEAR_NAMES: &[&str] = &[
    "PIE", "PI0", "QID", "NK0", "NK2", "NKI", "NL1", "OBW", "OB1", "OCX", "ORB", "OBS", "NTF", "NT3", "NTD", "ORD",
    "ORB", "MSI", "MS1", "LSH",
];

/// Names that nearly are listed ones, or are listed ones in another's place.
fn rename(random: &mut Random, draft: &mut Draft) {
    let at = later(random, draft);
    let name = match random.below(3) {
        0 => random.pick(&NAMES[1..]),
        1 => random.pick(UNLISTED),
        _ => random.pick(NEAR_NAMES),
    };
    draft.segments[at].name = name.as_bytes().to_vec();
}

/// The message ends after one of its first segments.
fn end_early(random: &mut Random, draft: &mut Draft) {
    let kept = random.between(1, draft.segments.len().min(5));
    draft.segments.truncate(kept);
}

/// A segment after which the end may not stand.
fn end_wrong(random: &mut Random, draft: &mut Draft) {
    let name = random.pick(&["ORC", "ORC", "NK1", "PID"]);
    let last = segment(random, name);
    draft.segments.push(last);
    if random.one_in(3) {
        draft.segments.push(Segment::new(b"ZZX"));
    }
}

fn header_only(random: &mut Random, draft: &mut Draft) {
    draft.segments.truncate(1);
    for _ in 0..random.below(3) {
        let name = random.pick(UNLISTED);
        draft.segments.push(Segment::new(name.as_bytes()));
    }
}

/// A second header, refused by the frame, and a header in another place.
fn other_header(random: &mut Random, draft: &mut Draft) {
    let at = any(random, draft);
    let header = draft.segments[0].clone();
    if random.one_in(2) {
        draft.segments.insert(at, header);
    } else {
        draft.segments.push(Segment::new(b"MSH"));
    }
}

pub static DAMAGES: &[Damage<Draft>] = &[
    ("segment left out", 9, drop_one),
    ("segments swapped", 6, swap),
    ("segment doubled", 5, double),
    ("segment put in", 8, insert),
    ("segment of a name alone", 5, bare),
    ("segment renamed", 6, rename),
    ("early end", 8, end_early),
    ("wrong end", 5, end_wrong),
    ("header alone", 2, header_only),
    ("second header", 3, other_header),
];

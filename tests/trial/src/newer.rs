//! What a newer sender adds: segments, fields, components and subcomponents that the profile does not list.

use crate::dates;
use crate::draft::{Draft, Segment, WITHIN_FIELD};
use crate::profile::{fields_of, leaves, Field};
use crate::random::Random;
use crate::values::{of, text, NEAR_ESCAPES};

pub static UNLISTED: &[&str] = &["ZZX", "PV1", "PD1", "SPM", "TQ1", "EVN", "Z00", "MSA", "OBZ", "NK2", "ERR", "A1B"];

/// Anything that may stand in a part, with any of the separators given.
pub fn anything(random: &mut Random, separators: &[u8]) -> Vec<u8> {
    let mut out = Vec::new();
    for _ in 0..random.between(0, 4) {
        match random.below(5) {
            0 => out.extend_from_slice(random.pick(NEAR_ESCAPES).as_bytes()),
            1 if !separators.is_empty() => {
                let length = random.between(1, 3);
                out.extend(of(random, separators, length));
            }
            // a day that there is not, where nobody asks
            2 if out.is_empty() => out.extend(dates::lacking(random).text().into_bytes()),
            _ => {
                let length = random.between(1, 6);
                out.extend(text(random, length));
            }
        }
    }
    if random.one_in(150) {
        let length = random.between(200, 5_000);
        out.extend(text(random, length));
    }
    out
}

pub fn unlisted_segment(random: &mut Random) -> Segment {
    let name = random.pick(UNLISTED);
    let mut segment = Segment::new(name.as_bytes());
    for _ in 0..random.between(0, 4) {
        let field = anything(random, WITHIN_FIELD);
        segment.fields.push(field);
    }
    segment
}

fn add_segment(random: &mut Random, draft: &mut Draft) {
    let at = random.between(1.min(draft.segments.len()), draft.segments.len());
    let segment = unlisted_segment(random);
    draft.segments.insert(at, segment);
}

/// A segment with listed fields, if there is one.
pub fn listed_segment(random: &mut Random, draft: &Draft) -> Option<(usize, &'static [Field])> {
    for _ in 0..8 {
        let at = random.below(draft.segments.len().max(1));
        let fields = draft.segments.get(at).map_or(&[][..], |segment| fields_of(&segment.name));
        if !fields.is_empty() {
            return Some((at, fields));
        }
    }
    None
}

fn add_field(random: &mut Random, draft: &mut Draft) {
    if let Some((at, fields)) = listed_segment(random, draft) {
        let number = random.between(1, 30);
        let header = draft.segments[at].name == b"MSH" && number < 3;
        if !header && fields.iter().all(|field| field.number != number) {
            *draft.segments[at].field(number) = anything(random, WITHIN_FIELD);
        }
    }
}

/// An unlisted component or subcomponent in a listed field.
fn add_part(random: &mut Random, draft: &mut Draft) {
    if let Some((at, fields)) = listed_segment(random, draft) {
        let field = random.pick(fields);
        let listed = leaves(field.kind);
        let most = random.pick(&[9, 9, 9, 9, 9, 9, 9, 40]);
        let component = random.between(1, most);
        let subcomponent = random.pick(&[1, 1, 2, 3, 4, 5]);
        let known = listed.iter().any(|leaf| (leaf.component, leaf.subcomponent) == (component, subcomponent));
        let repetition = if random.one_in(4) { random.between(1, field.most) } else { 1 };
        if !known && field.kind != "*" {
            let value = anything(random, if subcomponent == 1 { b"" } else { b"&" });
            draft.segments[at].put(field.number, [repetition, component, subcomponent], &value);
        }
    }
}

/// The same in OBX-5, where the type says what is listed; subcomponents after the first never are.
fn add_to_value(random: &mut Random, draft: &mut Draft) {
    let observations = draft.named(b"OBX");
    if !observations.is_empty() {
        let at = random.pick(&observations);
        let (component, subcomponent) =
            random.pick(&[(1, 2), (1, 3), (2, 2), (4, 2), (7, 1), (7, 2), (8, 1), (2, 1), (5, 1)]);
        let value = anything(random, b"&");
        draft.segments[at].put(5, [1, component, subcomponent], &value);
    }
}

fn add_separators(random: &mut Random, draft: &mut Draft) {
    if let Some((at, fields)) = listed_segment(random, draft) {
        let count = random.between(1, 4);
        if random.one_in(2) {
            let length = draft.segments[at].fields.len() + count;
            draft.segments[at].fields.resize(length, Vec::new());
        } else {
            let number = random.pick(fields).number;
            let more = of(random, b"^&", count);
            draft.segments[at].field(number).extend(more);
        }
    }
}

static ADDITIONS: &[fn(&mut Random, &mut Draft)] =
    &[add_segment, add_segment, add_field, add_field, add_part, add_part, add_to_value, add_separators];

pub fn add(random: &mut Random, draft: &mut Draft) {
    for _ in 0..random.pick(&[1, 1, 2, 3, 5]) {
        let addition = random.pick(ADDITIONS);
        addition(random, draft);
    }
}

//! Messages that keep every rule of the profile.

use crate::draft::{Draft, Segment};
use crate::profile::{fields_of, leaves, limit, list, Field, Leaf, TYPES};
use crate::random::Random;
use crate::values::good;

/// A value that its leaf allows.
fn value(random: &mut Random, field: &Field, leaf: &Leaf) -> Vec<u8> {
    let codes = list(field.name, field.number, leaf.component);
    if codes.is_empty() {
        good(random, leaf.simple, limit(field, leaf.simple))
    } else {
        random.pick(codes).as_bytes().to_vec()
    }
}

/// One repetition with some of its listed leaves, at least one.
fn repetition(random: &mut Random, field: &Field, listed: &[Leaf], out: &mut Vec<u8>) {
    let sure = random.below(listed.len());
    let (mut component, mut subcomponent) = (1, 1);
    for (at, leaf) in listed.iter().enumerate() {
        if leaf.starred || at == sure || random.percent(40) {
            if component < leaf.component {
                out.resize(out.len() + leaf.component - component, b'^');
                subcomponent = 1;
            }
            out.resize(out.len() + leaf.subcomponent - subcomponent, b'&');
            component = leaf.component;
            subcomponent = leaf.subcomponent;
            out.extend(value(random, field, leaf));
        }
    }
}

/// A field of that type; its first repetition is filled, later ones may be empty.
fn field_text(random: &mut Random, field: &Field, kind: &str) -> Vec<u8> {
    let listed = leaves(kind);
    let repetitions = if field.most > 1 && random.one_in(3) { random.between(2, field.most) } else { 1 };
    let mut text = Vec::new();
    repetition(random, field, listed, &mut text);
    for _ in 1..repetitions {
        text.extend_from_slice(b"~");
        if !random.one_in(6) {
            repetition(random, field, listed, &mut text);
        }
    }
    text
}

/// OBX-2 and OBX-5 go together: the type may only be left out where no value is.
fn observed(random: &mut Random, segment: &mut Segment, value: &Field) {
    let kind = random.pick(TYPES);
    if random.percent(92) {
        *segment.field(2) = kind.as_bytes().to_vec();
        if random.percent(92) {
            *segment.field(5) = field_text(random, value, kind);
        }
    }
}

pub fn segment(random: &mut Random, name: &str) -> Segment {
    let mut segment = Segment::new(name.as_bytes());
    let full = random.one_in(8);
    for field in fields_of(name.as_bytes()) {
        if field.kind == "*" {
            observed(random, &mut segment, field);
        } else if (field.name, field.number) != ("OBX", 2) && (field.required || full || random.percent(45)) {
            *segment.field(field.number) = field_text(random, field, field.kind);
        }
    }
    segment
}

fn notes(random: &mut Random, segments: &mut Vec<Segment>) {
    if random.one_in(4) {
        for _ in 0..random.between(1, 2) {
            segments.push(segment(random, "NTE"));
        }
    }
}

fn group(random: &mut Random, segments: &mut Vec<Segment>) {
    if random.one_in(2) {
        segments.push(segment(random, "ORC"));
    }
    segments.push(segment(random, "OBR"));
    notes(random, segments);
    let most = random.pick(&[1, 1, 2, 3]);
    for _ in 0..random.between(0, most) {
        segments.push(segment(random, "OBX"));
        notes(random, segments);
    }
}

pub fn draft(random: &mut Random) -> Draft {
    let mut segments = vec![segment(random, "MSH"), segment(random, "PID")];
    let kin = random.pick(&[0, 0, 0, 1, 2]);
    for _ in 0..kin {
        segments.push(segment(random, "NK1"));
    }
    for _ in 0..random.pick(&[1, 1, 1, 2, 3]) {
        group(random, &mut segments);
    }
    Draft { segments }
}

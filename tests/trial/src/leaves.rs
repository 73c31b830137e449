//! Damage to leaves and fields of a draft.

use crate::damage::Damage;
use crate::dates;
use crate::draft::{Draft, Segment};
use crate::newer::{anything, listed_segment};
use crate::profile::{fields_of, leaves, limit, list, type_limit, Field, Leaf, Simple, DATED, TYPES};
use crate::random::Random;
use crate::values::{at_limit, near, near_code, of, resolving, spoilt, NEAR_ESCAPES};

/// A listed leaf somewhere in a draft.
struct Spot {
    at: usize,
    field: Field,
    leaf: Leaf,
    place: [usize; 3],
}

/// The type that OBX-5 has in a segment.
fn kind_of(segment: &Segment, field: &Field) -> &'static str {
    let named = segment.text(2);
    match TYPES.iter().find(|kind| kind.as_bytes() == named) {
        _ if field.kind != "*" => field.kind,
        Some(kind) => kind,
        None => "ST",
    }
}

fn spot(random: &mut Random, draft: &Draft) -> Option<Spot> {
    let (at, fields) = listed_segment(random, draft)?;
    let field = random.pick(fields);
    let leaf = random.pick(leaves(kind_of(&draft.segments[at], &field)));
    let repetition = if random.one_in(4) { random.between(1, field.most) } else { 1 };
    Some(Spot { at, field, leaf, place: [repetition, leaf.component, leaf.subcomponent] })
}

fn set(draft: &mut Draft, spot: &Spot, value: &[u8]) {
    draft.segments[spot.at].put(spot.field.number, spot.place, value);
}

fn length(random: &mut Random, draft: &mut Draft) {
    if let Some(spot) = spot(random, draft) {
        let value = at_limit(random, spot.leaf.simple, limit(&spot.field, spot.leaf.simple));
        set(draft, &spot, &value);
    }
}

/// A bad escape in a text about as long as its limit, or too long.
fn long_escape(random: &mut Random, draft: &mut Draft) {
    if let Some(spot) = spot(random, draft) {
        let value = spoilt(random, limit(&spot.field, spot.leaf.simple));
        set(draft, &spot, &value);
    }
}

/// A leaf that has a form, if one is met soon.
fn type_edge(random: &mut Random, draft: &mut Draft) {
    for _ in 0..6 {
        if let Some(spot) = spot(random, draft) {
            if matches!(spot.leaf.simple, Simple::Si | Simple::Nm | Simple::Dtm | Simple::Tm) {
                let value = near(random, spot.leaf.simple);
                return set(draft, &spot, &value);
            }
        }
    }
}

/// OBX-5 has types that no other field has.
fn value_edge(random: &mut Random, draft: &mut Draft) {
    let observations = draft.named(b"OBX");
    if !observations.is_empty() {
        let at = random.pick(&observations);
        let kind = random.pick(&["NM", "NM", "TM", "TM", "TM", "DTM", "SN"]);
        let leaf = if kind == "SN" { leaves(kind)[random.pick(&[1, 3])] } else { leaves(kind)[0] };
        let value = near(random, leaf.simple);
        *draft.segments[at].field(2) = kind.as_bytes().to_vec();
        draft.segments[at].field(5).clear();
        draft.segments[at].put(5, [1, leaf.component, 1], &value);
    }
}

/// The limits that only an observation has: of three fields their own, and those of the types that OBX-5 alone can have.
fn observed_length(random: &mut Random, draft: &mut Draft) {
    let observations = draft.named(b"OBX");
    if !observations.is_empty() {
        let segment = &mut draft.segments[random.pick(&observations)];
        let number = random.pick(&[2, 4, 5, 5, 7]);
        let field = fields_of(b"OBX").iter().find(|field| field.number == number).expect("a listed field");
        let kind = if field.kind == "*" { random.pick(&["NM", "TM", "TM", "TX"]) } else { field.kind };
        let most = limit(field, leaves(kind)[0].simple);
        let length = most + random.below(3) - 1;
        let value = if random.one_in(4) { spoilt(random, most) } else { resolving(random, length) };
        if field.kind == "*" {
            *segment.field(2) = kind.as_bytes().to_vec();
        }
        *segment.field(field.number) = value;
    }
}

/// A day about an end of its month, in any field that has a date; OBX-5 is made one. Not every draft has an OBX, so its
/// fields are tried oftener.
fn day(random: &mut Random, draft: &mut Draft) {
    let observed = random.pick(&[("OBX", 5), ("OBX", 14)]);
    let (name, number) = if random.one_in(4) { observed } else { random.pick(DATED) };
    let segments = draft.named(name.as_bytes());
    if !segments.is_empty() {
        let at = random.pick(&segments);
        if (name, number) == ("OBX", 5) {
            *draft.segments[at].field(2) = b"DTM".to_vec();
            draft.segments[at].field(5).clear();
        }
        let value = dates::text(random);
        draft.segments[at].put(number, [1, 1, 1], &value);
    }
}

/// An escape or half of one, alone or inside another text.
fn escape(random: &mut Random, draft: &mut Draft) {
    if let Some(spot) = spot(random, draft) {
        let mut value = random.pick(NEAR_ESCAPES).as_bytes().to_vec();
        if random.one_in(2) {
            let most = random.pick(&[4, 4, 4, 21]);
            let before = random.between(1, most);
            let after = random.between(0, 4);
            value = [of(random, b"aF1", before), value, of(random, b"aF1\\", after)].concat();
        }
        set(draft, &spot, &value);
    }
}

fn code(random: &mut Random, draft: &mut Draft) {
    for _ in 0..20 {
        if let Some(spot) = spot(random, draft) {
            let codes = list(spot.field.name, spot.field.number, spot.leaf.component);
            if !codes.is_empty() {
                let value = near_code(random, codes);
                return set(draft, &spot, &value);
            }
        }
    }
}

/// The four codes of the header, each with a reason of its own.
fn header_code(random: &mut Random, draft: &mut Draft) {
    let (number, component) = random.pick(&[(9, 1), (9, 2), (11, 1), (12, 1)]);
    let codes = list("MSH", number, component);
    let other = random.pick(&["ACK", "ADT", "R21", "O21", "X", "2.3", "2.5", "2.5.1.1", "2.6", "p", "DP"]);
    let value = if random.one_in(2) { near_code(random, codes) } else { other.as_bytes().to_vec() };
    draft.segments[0].put(number, [1, component, 1], &value);
}

fn control_number(random: &mut Random, draft: &mut Draft) {
    let length = random.pick(&[19, 20, 21, 1]);
    let long = resolving(random, length);
    let bad = spoilt(random, 20);
    let near = random.pick(NEAR_ESCAPES).as_bytes().to_vec();
    let other =
        random.pick(&["", "^X", "&X", "C7^X", "C7&X", "~C7", "C7~C8", "^", "~", " ", "C7~"]).as_bytes().to_vec();
    *draft.segments[0].field(10) = match random.below(6) {
        0..=2 => long,
        3 => bad,
        4 => near,
        _ => other,
    };
}

/// The four that a reply copies: leaves too long, with bad escapes, in later repetitions, or empty in the middle.
fn sender(random: &mut Random, draft: &mut Draft) {
    let number = random.between(3, 6);
    let near = random.pick(NEAR_ESCAPES).as_bytes().to_vec();
    let component = random.between(1, 3);
    let leaf = leaves("HD")[component - 1];
    match random.below(8) {
        0 => draft.segments[0].put(number, [1, component, 1], &near),
        1..=3 => {
            let value = at_limit(random, leaf.simple, type_limit(leaf.simple));
            draft.segments[0].put(number, [1, component, 1], &value);
        }
        4 => {
            let value = spoilt(random, type_limit(leaf.simple));
            draft.segments[0].put(number, [1, component, 1], &value);
        }
        5 => draft.segments[0].put(number, [2, component, 1], b"X"),
        6 => draft.segments[0].put(number, [1, component, 2], b"X"),
        _ => *draft.segments[0].field(number) = random.pick(&["^^X", "^X", "X^^Y", "^^", "~X", ""]).as_bytes().to_vec(),
    }
}

/// All that a reply copies at or about its limit, and much of it escapes, so that the reply is long; now and then a leaf
/// that it leaves out.
fn long_header(random: &mut Random, draft: &mut Draft) {
    for number in 3..=6 {
        for leaf in leaves("HD") {
            if random.percent(70) {
                let most = type_limit(leaf.simple);
                let value = match random.below(30) {
                    0 => resolving(random, most + 1),
                    1 => spoilt(random, most),
                    _ => resolving(random, most),
                };
                draft.segments[0].put(number, [1, leaf.component, 1], &value);
            }
        }
    }
    if random.one_in(2) {
        *draft.segments[0].field(10) = resolving(random, 20);
    }
}

/// The leaves that a slip holds, with escapes and at their limit: one of them, or all.
fn filed(random: &mut Random, draft: &mut Draft) {
    static FILED: &[(&str, usize)] = &[("PID", 3), ("OBR", 2), ("OBR", 3), ("OBR", 4)];
    let one = random.below(FILED.len());
    let kept = if random.one_in(3) { FILED } else { &FILED[one..=one] };
    for (name, number) in kept {
        let length = random.pick(&[1, 3, 197, 198, 199, 199, 199, 200]);
        let value = resolving(random, length);
        for at in draft.named(name.as_bytes()) {
            draft.segments[at].put(*number, [1, 1, 1], &value);
        }
    }
}

fn emptied_leaf(random: &mut Random, draft: &mut Draft) {
    if let Some(spot) = spot(random, draft) {
        set(draft, &spot, b"");
    }
}

fn emptied_field(random: &mut Random, draft: &mut Draft) {
    if let Some(spot) = spot(random, draft) {
        draft.segments[spot.at].field(spot.field.number).clear();
    }
}

fn only_separators(random: &mut Random, draft: &mut Draft) {
    if let Some(spot) = spot(random, draft) {
        let length = random.between(1, 4);
        *draft.segments[spot.at].field(spot.field.number) = of(random, b"^&~", length);
    }
}

/// A field in which only unlisted parts have text.
fn only_unlisted(random: &mut Random, draft: &mut Draft) {
    if let Some(spot) = spot(random, draft) {
        let (component, subcomponent) = random.pick(&[(1, 2), (1, 3), (9, 1), (9, 2), (2, 2), (4, 4), (5, 2), (8, 1)]);
        let value = anything(random, b"");
        let segment = &mut draft.segments[spot.at];
        segment.field(spot.field.number).clear();
        segment.put(spot.field.number, [1, component, subcomponent], &value);
    }
}

/// Nothing listed in the first repetition, and text in the second.
fn second_filled(random: &mut Random, draft: &mut Draft) {
    if let Some(spot) = spot(random, draft) {
        let first = random.pick(&["", "^", "&", "^^^^^^^^^x", "&x"]).as_bytes();
        let text = draft.segments[spot.at].text(spot.field.number);
        *draft.segments[spot.at].field(spot.field.number) = [first, b"~", &text[..]].concat();
    }
}

/// Repetitions about the greatest number, with text or without.
fn repetitions(random: &mut Random, draft: &mut Draft) {
    if let Some(spot) = spot(random, draft) {
        let text = draft.segments[spot.at].text(spot.field.number);
        let wanted = spot.field.most + random.pick(&[0, 1, 1, 2, 7]);
        let mut field = text.clone();
        while field.iter().filter(|byte| **byte == b'~').count() + 1 < wanted {
            field.push(b'~');
            if random.one_in(2) {
                field.extend_from_slice(text.split(|byte| *byte == b'~').next().unwrap_or(b""));
            }
        }
        *draft.segments[spot.at].field(spot.field.number) = field;
    }
}

pub static TYPE_FIELDS: &[&str] = &[
    "", "", "CE", "DTM", "FT", "NM", "SN", "ST", "TM", "TX", "CX", "TS", "nm", "NMX", "NM X", "N", "C", "DT", "DTMX",
    "dtm", "DTM^NM", "DTM&NM", "DTM~NM", "NM^DTM", "NM~DTM", "^DTM", "&DTM", "NM^ST", "^NM", "NM&ST", "&NM", "NM~ST",
    "~NM", "NM~", "~", "^", "&", "\\E\\", "N\\", "TXX", "NM ", " NM", "SN^", "CE^^x", "TM&",
];

pub static VALUE_FIELDS: &[&str] = &[
    "", "^", "&", "~", "^x", "&x", "~x", "1", "1^2", "1&2", "1~2", "^1", "^^^1", "^^^x", "<^1", "<^x", "^1^-^2",
    ">^1^/^x", "A^B^C", "^B^C", "^^LN", "A^B^LN^D^E^F", "^^^^^F", "^^^^^^x", "2024", "2359", "20240230", "24", "3.1x",
    "a\\b", "\\T\\", "1^a\\b", "1&a\\b", "a^^a\\b", "1^^^^^^a\\b", "x^2", "~1", "1~", "12^y^z", "=", "<^-1.5^:^+2.",
    "1.5^x~2", "20230229+0100", "20240229", "20240230^x", "20240230&x", "20240230~2024", "2024^20240230",
    "2024&20240230", "20240431",
];

/// OBX-2 against OBX-5.
fn types(random: &mut Random, draft: &mut Draft) {
    let observations = draft.named(b"OBX");
    if !observations.is_empty() {
        let at = random.pick(&observations);
        if random.percent(70) {
            *draft.segments[at].field(2) = random.pick(TYPE_FIELDS).as_bytes().to_vec();
        }
        if random.percent(70) {
            *draft.segments[at].field(5) = random.pick(VALUE_FIELDS).as_bytes().to_vec();
        }
    }
}

/// A good value of one type under the name of another.
fn other_type(random: &mut Random, draft: &mut Draft) {
    let observations = draft.named(b"OBX");
    if !observations.is_empty() {
        let at = random.pick(&observations);
        let kind = random.pick(TYPES);
        let listed = leaves(random.pick(TYPES));
        let leaf = random.pick(listed);
        *draft.segments[at].field(2) = kind.as_bytes().to_vec();
        let value = if random.one_in(2) {
            near(random, leaf.simple)
        } else {
            at_limit(random, leaf.simple, type_limit(Simple::Short))
        };
        draft.segments[at].put(5, [1, leaf.component, 1], &value);
    }
}

/// A listed segment that ends early, so that later fields are absent instead of zero bytes long.
fn cut_fields(random: &mut Random, draft: &mut Draft) {
    if let Some((at, _)) = listed_segment(random, draft) {
        let kept = random.between(0, draft.segments[at].fields.len());
        draft.segments[at].fields.truncate(kept);
    }
}

fn shifted_fields(random: &mut Random, draft: &mut Draft) {
    if let Some((at, _)) = listed_segment(random, draft) {
        let place = random.between(0, draft.segments[at].fields.len());
        if random.one_in(2) || place == draft.segments[at].fields.len() {
            draft.segments[at].fields.insert(place, Vec::new());
        } else {
            draft.segments[at].fields.remove(place);
        }
    }
}

pub static DAMAGES: &[Damage<Draft>] = &[
    ("length at a limit", 44, length),
    ("bad escape in a long text", 20, long_escape),
    ("length in an observation", 24, observed_length),
    ("edge of a type", 16, type_edge),
    ("value at an edge of its type", 20, value_edge),
    ("day about the end of its month", 96, day),
    ("escape", 10, escape),
    ("code near a list", 16, code),
    ("code of the header", 34, header_code),
    ("control number", 60, control_number),
    ("sender and receiver", 30, sender),
    ("long header", 30, long_header),
    ("leaves of a slip", 8, filed),
    ("emptied leaf", 7, emptied_leaf),
    ("emptied field", 5, emptied_field),
    ("only separators", 6, only_separators),
    ("only unlisted parts", 6, only_unlisted),
    ("second repetition filled", 6, second_filled),
    ("number of repetitions", 10, repetitions),
    ("type and value", 18, types),
    ("value of another type", 14, other_type),
    ("fields cut off", 4, cut_fields),
    ("fields shifted", 3, shifted_fields),
];

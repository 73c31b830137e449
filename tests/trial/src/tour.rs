//! A tour of the profile: one message with every listed field, altered at one place at a time.

use crate::draft::{put, Draft, Segment, WITHIN_FIELD};
use crate::profile::{fields_of, leaves, limit, list, Field, Leaf, Simple, FIELDS, NAMES, TYPES};
use crate::values::{LONGEST_LACKING, LONGEST_MOMENT, LONGEST_TIME};

/// A short value that the leaf allows.
fn plain(field: &Field, leaf: &Leaf) -> Vec<u8> {
    let codes = list(field.name, field.number, leaf.component);
    match (codes.first(), leaf.simple) {
        (Some(code), _) => code.as_bytes().to_vec(),
        (None, Simple::Dtm) => b"2024".to_vec(),
        (None, Simple::Tm) => b"23".to_vec(),
        (None, Simple::Si) | (None, Simple::Nm) => b"1".to_vec(),
        _ => b"a".to_vec(),
    }
}

/// A field of that type with every listed leaf filled.
pub fn text(field: &Field, kind: &str) -> Vec<u8> {
    let mut text = Vec::new();
    for leaf in leaves(kind) {
        text = put(&text, WITHIN_FIELD, &[1, leaf.component, leaf.subcomponent], &plain(field, leaf));
    }
    text
}

/// Every listed segment once, every listed leaf filled, OBX-5 of that type.
pub fn full(kind: &str) -> Draft {
    let mut segments = Vec::new();
    for name in NAMES {
        let mut segment = Segment::new(name.as_bytes());
        for field in fields_of(name.as_bytes()) {
            *segment.field(field.number) = text(field, if field.kind == "*" { kind } else { field.kind });
        }
        segments.push(segment);
    }
    let mut draft = Draft { segments };
    for at in draft.named(b"OBX") {
        *draft.segments[at].field(2) = kind.as_bytes().to_vec();
    }
    draft
}

fn altered(draft: &Draft, field: &Field, change: impl Fn(&mut Vec<u8>)) -> Vec<u8> {
    let mut copy = draft.clone();
    for segment in copy.segments.iter_mut().filter(|segment| segment.name == field.name.as_bytes()) {
        change(segment.field(field.number));
    }
    copy.write()
}

/// A leaf empty, at its limit, one over it, with an escape cut short, and not of its type or list; of a date also days
/// that there are not.
fn of_leaf(draft: &Draft, field: &Field, leaf: &Leaf) -> Vec<Vec<u8>> {
    let most = limit(field, leaf.simple);
    let longest = match leaf.simple {
        Simple::Si | Simple::Nm => b"1".repeat(most),
        Simple::Dtm => LONGEST_MOMENT.to_vec(),
        Simple::Tm => LONGEST_TIME.to_vec(),
        _ => b"x".repeat(most),
    };
    let over = [&longest[..], b"1"].concat();
    let mut values = vec![&b""[..], &longest, &over, b"\\E", b"1x"];
    if leaf.simple == Simple::Dtm {
        values.extend([LONGEST_LACKING, b"20230229"]);
    }
    let place = [1, leaf.component, leaf.subcomponent];
    values.iter().map(|value| altered(draft, field, |text| *text = put(text, WITHIN_FIELD, &place, value))).collect()
}

/// Codes beside each list: in small letters, cut, lengthened, doubled, and of other lists.
fn of_list(draft: &Draft, field: &Field, leaf: &Leaf) -> Vec<Vec<u8>> {
    let mut values: Vec<Vec<u8>> = Vec::new();
    for code in list(field.name, field.number, leaf.component).iter().take(2) {
        values.extend([code.to_lowercase().into_bytes(), code.repeat(2).into_bytes(), code.as_bytes()[1..].to_vec()]);
        values.extend(["X", " "].iter().map(|end| [code, *end].concat().into_bytes()));
        values.extend(["B", "K", "ADT", "R21", "2.3"].iter().map(|other| other.as_bytes().to_vec()));
    }
    let place = [1, leaf.component, leaf.subcomponent];
    values.iter().map(|value| altered(draft, field, |text| *text = put(text, WITHIN_FIELD, &place, value))).collect()
}

/// A field empty, with the greatest number of repetitions, with one more, with nothing in its first, with a bad escape
/// in its last, and with an added component and subcomponent.
fn of_field(draft: &Draft, field: &Field) -> Vec<Vec<u8>> {
    let more = b"~".repeat(field.most);
    vec![
        altered(draft, field, |text| text.clear()),
        altered(draft, field, |text| text.extend_from_slice(&more[1..])),
        altered(draft, field, |text| text.extend_from_slice(&more)),
        altered(draft, field, |text| *text = [b"~", &text[..]].concat()),
        altered(draft, field, |text| *text = [&text[..], &more[1..], b"\\"].concat()),
        altered(draft, field, |text| text.extend_from_slice(b"&\\^\\^^^^^^\\")),
    ]
}

/// Each with the field that is altered.
pub fn messages() -> Vec<(Field, Vec<u8>)> {
    let mut out = Vec::new();
    for field in FIELDS {
        let kinds = if field.kind == "*" { TYPES } else { &["CE"] };
        for kind in kinds {
            let draft = full(kind);
            let mut altered = vec![draft.write()];
            altered.extend(of_field(&draft, field));
            let listed = leaves(if field.kind == "*" { kind } else { field.kind });
            altered.extend(listed.iter().flat_map(|leaf| of_leaf(&draft, field, leaf)));
            altered.extend(listed.iter().flat_map(|leaf| of_list(&draft, field, leaf)));
            out.extend(altered.into_iter().map(|message| (*field, message)));
        }
    }
    out
}

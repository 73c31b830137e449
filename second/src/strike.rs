//! A message with all struck out that the profile does not list.

use crate::frame::{self, Frame};
use crate::parts::Segment;
use crate::profile::{self, Field, LeafRule, Listed, Usage};
use crate::separators::{COMPONENT, FIELD, REPETITION, SUBCOMPONENT};

/// Strikes out, beyond the first nine bytes, each unlisted segment with its
/// CR and the content of each unlisted field, component and subcomponent;
/// the separators around them stay. Nothing if the frame is bad.
pub fn strike(message: &[u8]) -> Option<Vec<u8>> {
    let frame = frame::check(message).ok()?;
    Some(strike_frame(&frame))
}

/// Does the same to a message whose frame holds.
pub fn strike_frame(frame: &Frame<'_>) -> Vec<u8> {
    let mut out = Vec::with_capacity(frame.message().len());
    for segment in frame.segments() {
        if let Some(listed) = Listed::named(segment.name()) {
            strike_segment(listed, segment, &mut out);
            out.push(b'\r');
        }
    }
    out
}

fn strike_segment(listed: Listed, segment: Segment<'_>, out: &mut Vec<u8>) {
    out.extend_from_slice(segment.head());
    let body = match segment.body() {
        Some(body) => body,
        None => return,
    };
    let mut value_leaves = profile::value_leaves(b"");
    for (number, text) in (segment.first_field()..).zip(body.split(|&byte| byte == FIELD)) {
        out.push(FIELD);
        if let Some(field) = find_field(listed, number) {
            if field.usage == Usage::Conditional {
                value_leaves = profile::value_leaves(first_leaf(text));
            }
            let leaves = field.leaves.unwrap_or(value_leaves);
            each_part(text, REPETITION, out, |_, repetition, out| {
                strike_repetition(leaves, repetition, out);
            });
        }
    }
}

fn find_field(listed: Listed, number: u32) -> Option<&'static Field> {
    let mut fields = listed.fields().iter();
    fields.find(|field| field.number == number)
}

fn first_leaf(field: &[u8]) -> &[u8] {
    let mut leaves = field.split(|&byte| matches!(byte, REPETITION | COMPONENT | SUBCOMPONENT));
    leaves.next().unwrap_or_default()
}

fn strike_repetition(leaves: &[LeafRule], repetition: &[u8], out: &mut Vec<u8>) {
    each_part(repetition, COMPONENT, out, |component, text, out| {
        if leaves.iter().any(|leaf| leaf.place.0 == component) {
            each_part(text, SUBCOMPONENT, out, |subcomponent, text, out| {
                if leaves
                    .iter()
                    .any(|leaf| leaf.place == (component, subcomponent))
                {
                    out.extend_from_slice(text);
                }
            });
        }
    });
}

/// Has each part of a whole written by number, the separators between.
fn each_part(
    whole: &[u8],
    separator: u8,
    out: &mut Vec<u8>,
    write: impl Fn(u32, &[u8], &mut Vec<u8>),
) {
    for (number, part) in (1..).zip(whole.split(|&byte| byte == separator)) {
        if number > 1 {
            out.push(separator);
        }
        write(number, part, out);
    }
}

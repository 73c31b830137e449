//! The text at a place.

use std::ops::Range;

use crate::frame::{self, Frame};
use crate::refusal::Refusal;
use crate::separators::{COMPONENT, FIELD, HEADER_HEAD, REPETITION, SUBCOMPONENT};

/// The greatest occurrence that may be asked for: no message has more
/// segments.
const MOST_OCCURRENCE: u64 = frame::MOST_SEGMENTS as u64;
/// The greatest field, component or subcomponent that may be asked for.
const MOST_PART: u64 = 255;
/// The greatest repetition that may be asked for: no message has more
/// bytes.
const MOST_REPETITION: u64 = frame::MOST_BYTES as u64;

/// Where MSH-1 and MSH-2 stand in every message.
const MSH_1: Range<usize> = 3..4;
const MSH_2: Range<usize> = 4..HEADER_HEAD;

/// The numbers of an asked place, each counted from 1.
#[derive(Clone, Copy, Debug, PartialEq, Eq)]
#[allow(missing_docs)]
pub struct Asked {
    /// Counted over the segments of the asked name.
    pub occurrence: u64,
    pub field: u64,
    pub repetition: u64,
    pub component: u64,
    pub subcomponent: u64,
}

/// What stands at a place.
#[derive(Clone, Debug, PartialEq, Eq)]
pub enum Found {
    /// Nothing: absent, or of no bytes.
    Empty,
    /// This part of the caller's message.
    Text(Range<usize>),
}

/// Looks up a leaf. Refuses with 1 to 8, 9, 10.
pub fn look_up(message: &[u8], name: &[u8], asked: &Asked) -> Result<Found, Refusal> {
    let frame = frame::check(message)?;
    let name = asked_name(name).ok_or(Refusal::BadPlace)?;
    if !asked.is_place() {
        return Err(Refusal::BadPlace);
    }
    let segment = find_segment(&frame, name, asked.occurrence).ok_or(Refusal::NoSegment)?;
    let leaf = if name == *b"MSH" {
        header_leaf(message, segment, asked)
    } else {
        let head = segment.start + name.len();
        leaf_after(message, head, segment.end, asked.field, asked)
    };
    Ok(if leaf.is_empty() {
        Found::Empty
    } else {
        Found::Text(leaf)
    })
}

fn asked_name(name: &[u8]) -> Option<[u8; 3]> {
    let name = <[u8; 3]>::try_from(name).ok()?;
    Some(name).filter(|&name| frame::is_name(name))
}

impl Asked {
    fn is_place(&self) -> bool {
        (1..=MOST_OCCURRENCE).contains(&self.occurrence)
            && (1..=MOST_PART).contains(&self.field)
            && (1..=MOST_REPETITION).contains(&self.repetition)
            && (1..=MOST_PART).contains(&self.component)
            && (1..=MOST_PART).contains(&self.subcomponent)
    }
}

/// The part of the message that is the asked segment, without its CR.
fn find_segment(frame: &Frame<'_>, name: [u8; 3], occurrence: u64) -> Option<Range<usize>> {
    let mut start = 0;
    let mut seen = 0;
    for segment in frame.segments() {
        let end = start + segment.bytes().len();
        if segment.name() == name {
            seen += 1;
            if seen == occurrence {
                return Some(start..end);
            }
        }
        start = end + 1;
    }
    None
}

/// MSH-1 and MSH-2 are unsplit; the field after the ninth byte is MSH-3.
fn header_leaf(message: &[u8], header: Range<usize>, asked: &Asked) -> Range<usize> {
    let first_leaf = (asked.repetition, asked.component, asked.subcomponent) == (1, 1, 1);
    match asked.field {
        1 if first_leaf => MSH_1,
        2 if first_leaf => MSH_2,
        1 | 2 => 0..0,
        field => leaf_after(message, HEADER_HEAD, header.end, field - 2, asked),
    }
}

/// The asked leaf in the given field after a segment's head.
fn leaf_after(message: &[u8], head: usize, end: usize, field: u64, asked: &Asked) -> Range<usize> {
    if head == end {
        return end..end;
    }
    let descent = [
        (FIELD, field),
        (REPETITION, asked.repetition),
        (COMPONENT, asked.component),
        (SUBCOMPONENT, asked.subcomponent),
    ];
    descent
        .iter()
        .fold(head + 1..end, |whole, &(separator, number)| {
            part(message, whole, separator, number)
        })
}

/// The numbered part of a whole, of no bytes if there are fewer.
fn part(message: &[u8], whole: Range<usize>, separator: u8, number: u64) -> Range<usize> {
    let mut start = whole.start;
    for _ in 1..number {
        match length_to(separator, &message[start..whole.end]) {
            Some(length) => start += length + 1,
            None => return whole.end..whole.end,
        }
    }
    let end = match length_to(separator, &message[start..whole.end]) {
        Some(length) => start + length,
        None => whole.end,
    };
    start..end
}

fn length_to(separator: u8, text: &[u8]) -> Option<usize> {
    text.iter().position(|&byte| byte == separator)
}

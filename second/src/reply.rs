//! The acknowledgement of a message.

use std::io::{self, Write};

use crate::escape;
use crate::fault::Fault;
use crate::frame::{self, Frame};
use crate::judge;
use crate::parts::{FieldWalk, Fields};
use crate::profile::{LeafRule, List, CONTROL_NUMBER, HD};
use crate::refusal::Refusal;
use crate::separators::{COMPONENT, FIELD, HEADER, HEADER_HEAD};
use crate::types;

/// No reply is longer. It copies leaves as they are written, so an escape
/// takes three bytes though it counts one.
pub const MOST_BYTES: usize = 3_200;
/// The digits of a stamp.
const STAMP_BYTES: usize = 14;
/// The longest reply number.
const MOST_NUMBER_BYTES: usize = 20;
/// The least condition that is answered AR; those below it are answered AE.
const LEAST_REJECTION: u8 = 200;

/// Writes the reply at the front of the buffer and says how many bytes it
/// wrote. Refuses with 1 to 8, 11 to 14.
pub fn reply(
    message: &[u8],
    stamp: &[u8],
    number: &[u8],
    buffer: &mut [u8],
) -> Result<usize, Refusal> {
    let frame = frame::check(message)?;
    if !is_stamp(stamp) {
        return Err(Refusal::BadStamp);
    }
    if !is_reply_number(number) {
        return Err(Refusal::BadReplyNumber);
    }
    let copied = Copied::from(&frame).ok_or(Refusal::NoControlNumber)?;
    let fault = judge::first_fault(&frame);

    let mut out = Vec::with_capacity(MOST_BYTES);
    write_header(&mut out, &copied, stamp, number);
    write_acknowledgement(&mut out, copied.control_number, fault.as_ref());
    if let Some(fault) = fault {
        write_error(&mut out, &fault).expect("a Vec takes all that is written");
    }

    let room = buffer.get_mut(..out.len()).ok_or(Refusal::NoRoom)?;
    room.copy_from_slice(&out);
    Ok(out.len())
}

fn is_stamp(stamp: &[u8]) -> bool {
    stamp.len() == STAMP_BYTES
        && types::is_digits(stamp)
        && types::is_date_time(stamp)
        && !types::names_no_such_day(stamp)
}

fn is_reply_number(number: &[u8]) -> bool {
    (1..=MOST_NUMBER_BYTES).contains(&number.len())
        && number.iter().copied().all(frame::is_capital_or_digit)
}

/// What a reply copies from the header of the message.
struct Copied<'m> {
    sender: [[&'m [u8]; 3]; 2],
    receiver: [[&'m [u8]; 3]; 2],
    control_number: &'m [u8],
    processing: &'m [u8],
}

impl<'m> Copied<'m> {
    /// Reads MSH-3 to 6, 10 and 11; nothing if MSH-10 can't be copied.
    fn from(frame: &Frame<'m>) -> Option<Copied<'m>> {
        let mut fields = Fields::of(frame.segments().next()?);
        let mut hd = |number| {
            fields.go_to(number);
            copied_hd(fields.walk())
        };
        let sender = [hd(3), hd(4)];
        let receiver = [hd(5), hd(6)];
        let control_number = fields.first_leaf(10);
        if control_number.is_empty() || !can_be_copied(control_number, &CONTROL_NUMBER) {
            return None;
        }
        let processing = fields.first_leaf(11);
        Some(Copied {
            sender,
            receiver,
            control_number,
            processing: if List::ProcessingId.holds(processing) {
                processing
            } else {
                b"P"
            },
        })
    }
}

/// The leaves of an HD's first repetition, those that can't be copied empty.
fn copied_hd(mut walk: FieldWalk<'_>) -> [&[u8]; 3] {
    let mut copied: [&[u8]; 3] = [&[]; 3];
    for (copy, rule) in copied.iter_mut().zip(HD) {
        let leaf = walk.leaf(rule.place);
        if can_be_copied(leaf, rule) {
            *copy = leaf;
        }
    }
    copied
}

/// Whether a leaf has no bad escape and, resolved, isn't over its limit.
fn can_be_copied(leaf: &[u8], rule: &LeafRule) -> bool {
    escape::resolved_length(leaf).map_or(false, |length| length <= rule.limit)
}

fn write_header(out: &mut Vec<u8>, copied: &Copied<'_>, stamp: &[u8], number: &[u8]) {
    out.extend_from_slice(&HEADER[..HEADER_HEAD]);
    for hd in copied.receiver.iter().chain(&copied.sender) {
        out.push(FIELD);
        write_components(out, hd);
    }
    let rest: [&[u8]; 8] = [
        b"|",
        stamp,
        b"||ACK^R01^ACK|",
        number,
        b"|",
        copied.processing,
        b"|2.5.1",
        b"\r",
    ];
    out.extend(rest.iter().copied().flatten());
}

/// Writes components, the trailing empty ones dropped.
fn write_components(out: &mut Vec<u8>, components: &[&[u8]]) {
    let filled = components.iter().rposition(|text| !text.is_empty());
    let kept = filled.map_or(0, |last| last + 1);
    for (index, text) in components[..kept].iter().enumerate() {
        if index > 0 {
            out.push(COMPONENT);
        }
        out.extend_from_slice(text);
    }
}

fn write_acknowledgement(out: &mut Vec<u8>, control_number: &[u8], fault: Option<&Fault>) {
    let code = match fault {
        None => b"AA",
        Some(fault) if fault.reason.condition() < LEAST_REJECTION => b"AE",
        Some(_) => b"AR",
    };
    out.extend_from_slice(b"MSA|");
    out.extend_from_slice(code);
    out.push(FIELD);
    out.extend_from_slice(control_number);
    out.push(b'\r');
}

fn write_error(out: &mut Vec<u8>, fault: &Fault) -> io::Result<()> {
    out.extend_from_slice(b"ERR||");
    out.extend_from_slice(&fault.place.name);
    // A place's zeros all trail.
    for number in fault.place.numbers().iter().take_while(|&&n| n != 0) {
        write!(out, "^{}", number)?;
    }
    let condition = fault.reason.condition();
    let text = condition_text(condition);
    write!(out, "|{}^{}^HL70357|E\r", condition, text)
}

/// The text of table 0357 for a condition.
fn condition_text(condition: u8) -> &'static str {
    match condition {
        100 => "Segment sequence error",
        101 => "Required field missing",
        102 => "Data type error",
        103 => "Table value not found",
        200 => "Unsupported message type",
        201 => "Unsupported event code",
        202 => "Unsupported processing id",
        _ => "Unsupported version id",
    }
}

//! Slips: what is kept of a group, in one slot of a book.

use std::ops::Range;

use crate::escape;
use crate::frame::{self, Frame};
use crate::judge;
use crate::parts::Fields;
use crate::refusal::Refusal;

/// The bytes of a slot.
pub const SLOT_BYTES: usize = 1_024;
/// The bytes before a value: its tag, and its length in two.
const HEAD_BYTES: usize = 3;

/// An OBX count is never greater: a message has 512 segments, and three of
/// them are MSH, PID and OBR.
const MOST_OBX: u16 = 509;

const COUNT_TAG: u8 = 6;
/// The tags of the texts and their greatest lengths.
const TEXTS: [(u8, usize); 5] = [(1, 20), (2, 199), (3, 199), (4, 199), (5, 199)];
/// The one text a slip may lack.
const OPTIONAL_TAG: u8 = 3;

/// Files a group's slip in a slot of the book. Refuses with 1 to 8, 15 to 17.
pub fn file(message: &[u8], group: u64, slot: u64, book: &mut [u8]) -> Result<(), Refusal> {
    let frame = frame::check(message)?;
    if judge::first_fault(&frame).is_some() {
        return Err(Refusal::NotAccepted);
    }
    let group = Group::read(&frame, group).ok_or(Refusal::NoGroup)?;
    let place = usize::try_from(slot)
        .ok()
        .and_then(|slot| book.chunks_exact_mut(SLOT_BYTES).nth(slot))
        .ok_or(Refusal::NoSlot)?;
    place.copy_from_slice(&group.slip());
    Ok(())
}

/// What a slip keeps of a group, as written in the message. The limits of
/// these leaves count resolved bytes, as the slip's own limits do, so the texts
/// of an accepted message fit though they may be longer as written.
#[derive(Default)]
struct Group<'m> {
    /// The texts of tags 1 to 5.
    texts: [&'m [u8]; 5],
    observations: u16,
}

impl<'m> Group<'m> {
    /// Reads a group of an accepted message, counted from 1. It runs from
    /// its OBR to the next one.
    fn read(frame: &Frame<'m>, number: u64) -> Option<Group<'m>> {
        let mut group = Group::default();
        let mut groups = 0;
        for segment in frame.segments() {
            let mut fields = Fields::of(segment);
            match &segment.name() {
                b"MSH" => group.texts[0] = fields.first_leaf(10),
                b"PID" => group.texts[1] = fields.first_leaf(3),
                b"OBR" if groups == number => break,
                b"OBR" => {
                    groups += 1;
                    if groups == number {
                        group.texts[2] = fields.first_leaf(2);
                        group.texts[3] = fields.first_leaf(3);
                        group.texts[4] = fields.first_leaf(4);
                    }
                }
                b"OBX" if groups == number => group.observations += 1,
                _ => {}
            }
        }
        Some(group).filter(|_| number > 0 && groups == number)
    }

    /// The slip, with zeros up to the slot's end.
    fn slip(&self) -> [u8; SLOT_BYTES] {
        let mut slip = [0; SLOT_BYTES];
        let mut end = 0;
        for ((tag, _), text) in TEXTS.iter().zip(self.texts) {
            if !text.is_empty() {
                let length = escape::resolve(text, &mut slip[end + HEAD_BYTES..])
                    .expect("accepted leaves have sound escapes and, resolved, fit in a slot");
                end = close(&mut slip, end, *tag, length);
            }
        }
        let count = self.observations.to_be_bytes();
        let start = end + HEAD_BYTES;
        slip[start..start + count.len()].copy_from_slice(&count);
        close(&mut slip, end, COUNT_TAG, count.len());
        slip
    }
}

/// Puts tag and length, from `start` on, before a value that is written
/// already; the next tag comes after it.
fn close(slip: &mut [u8], start: usize, tag: u8, length: usize) -> usize {
    let [high, low] = (length as u16).to_be_bytes();
    slip[start..start + HEAD_BYTES].copy_from_slice(&[tag, high, low]);
    start + HEAD_BYTES + length
}

/// The part of the book that is a tag's value. Refuses with 17 to 19.
pub fn read_slip(book: &[u8], slot: u64, tag: u64) -> Result<Range<usize>, Refusal> {
    let index = usize::try_from(slot).map_err(|_| Refusal::NoSlot)?;
    let slip = book.chunks_exact(SLOT_BYTES).nth(index);
    let values = values_of(slip.ok_or(Refusal::NoSlot)?).ok_or(Refusal::BadSlip)?;
    let value = (1..)
        .zip(values)
        .find(|(number, _)| *number == tag)
        .and_then(|(_, value)| value)
        .ok_or(Refusal::NoTag)?;
    // The slot is there, so its start is within the book.
    let slot_start = index * SLOT_BYTES;
    Ok(slot_start + value.start..slot_start + value.end)
}

/// Where the values of tags 1 to 6 stand, if the slot is a slip.
fn values_of(slip: &[u8]) -> Option<[Option<Range<usize>>; 6]> {
    let mut values: [Option<Range<usize>>; 6] = Default::default();
    let mut end = 0;
    for (value, &(tag, most)) in values.iter_mut().zip(&TEXTS) {
        if tag == OPTIONAL_TAG && slip[end] != OPTIONAL_TAG {
            continue;
        }
        let place = value_at(slip, end, tag)?;
        end = place.end;
        if !is_text(&slip[place.clone()], most) {
            return None;
        }
        *value = Some(place);
    }
    let count = value_at(slip, end, COUNT_TAG)?;
    let zeros = slip[count.end..].iter().all(|&byte| byte == 0);
    if !zeros || !is_count(&slip[count.clone()]) {
        return None;
    }
    values[5] = Some(count);
    Some(values)
}

/// Where the value stands whose tag, which must be this one, is at `start`.
fn value_at(slip: &[u8], start: usize, tag: u8) -> Option<Range<usize>> {
    match *slip.get(start..start + HEAD_BYTES)? {
        [found, high, low] if found == tag => {
            let start = start + HEAD_BYTES;
            let end = start + usize::from(u16::from_be_bytes([high, low]));
            Some(start..end).filter(|_| end <= slip.len())
        }
        _ => None,
    }
}

fn is_text(value: &[u8], most: usize) -> bool {
    (1..=most).contains(&value.len()) && value.iter().all(|byte| (b' '..=b'~').contains(byte))
}

fn is_count(value: &[u8]) -> bool {
    match *value {
        [high, low] => u16::from_be_bytes([high, low]) <= MOST_OBX,
        _ => false,
    }
}

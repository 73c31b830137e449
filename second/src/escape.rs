//! The five escapes, and text with them resolved: its bytes and its length.

use crate::refusal::Refusal;
use crate::separators::{COMPONENT, ESCAPE, FIELD, REPETITION, SUBCOMPONENT};

/// The bytes of a text with its escapes resolved, read from the left; an
/// error where a `\` begins no escape.
struct Resolved<'t> {
    rest: &'t [u8],
}

impl Iterator for Resolved<'_> {
    type Item = Result<u8, Refusal>;

    fn next(&mut self) -> Option<Self::Item> {
        let (byte, length) = match *self.rest {
            [] => return None,
            [ESCAPE, code, ESCAPE, ..] => (separator(code), 3),
            [ESCAPE, ..] => (Err(Refusal::BadEscape), 1),
            [byte, ..] => (Ok(byte), 1),
        };
        self.rest = &self.rest[length..];
        Some(byte)
    }
}

/// The separator an escape stands for.
fn separator(code: u8) -> Result<u8, Refusal> {
    match code {
        b'F' => Ok(FIELD),
        b'S' => Ok(COMPONENT),
        b'T' => Ok(SUBCOMPONENT),
        b'R' => Ok(REPETITION),
        b'E' => Ok(ESCAPE),
        _ => Err(Refusal::BadEscape),
    }
}

/// How many bytes the text has when resolved: each escape counts one. No
/// text with a bad escape has a length; that is refused with 20.
// Inlined, as it is asked of every leaf and most have no escape at all.
#[inline]
pub fn resolved_length(text: &[u8]) -> Result<usize, Refusal> {
    match text.contains(&ESCAPE) {
        true => counted_length(text),
        false => Ok(text.len()),
    }
}

/// The same for any text, counted byte by byte.
fn counted_length(text: &[u8]) -> Result<usize, Refusal> {
    Resolved { rest: text }.try_fold(0, |length, byte| byte.map(|_| length + 1))
}

/// Writes the text, its escapes resolved, at the front of the buffer and
/// says how many bytes it wrote. Refuses with 20, then 14.
pub fn resolve(text: &[u8], buffer: &mut [u8]) -> Result<usize, Refusal> {
    let length = resolved_length(text)?;
    let room = buffer.get_mut(..length).ok_or(Refusal::NoRoom)?;
    for (place, byte) in room.iter_mut().zip(Resolved { rest: text }) {
        *place = byte?;
    }
    Ok(length)
}

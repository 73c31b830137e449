//! What the frame must be: the eight checks every message meets first.

use crate::parts::Segment;
use crate::refusal::Refusal;
use crate::separators::{FIELD, HEADER};

/// The longest message, in bytes.
pub const MOST_BYTES: usize = 65_535;
/// The greatest number of segments.
pub const MOST_SEGMENTS: usize = 512;

/// A message that has passed the eight checks.
///
/// Its bytes are ASCII, so it is kept as text: `str` finds the segment ends
/// with the standard library's fast character search.
#[derive(Clone, Copy, Debug)]
pub struct Frame<'m> {
    text: &'m str,
}

impl<'m> Frame<'m> {
    /// The message itself.
    pub fn message(&self) -> &'m [u8] {
        self.text.as_bytes()
    }

    /// The segments in message order, each without its CR.
    pub fn segments(&self) -> impl Iterator<Item = Segment<'m>> {
        raw_segments(self.text).map(Segment::new)
    }
}

/// Makes the frame checks 1 to 8, in that order.
pub fn check(message: &[u8]) -> Result<Frame<'_>, Refusal> {
    if message.is_empty() {
        return Err(Refusal::Empty);
    }
    if message.len() > MOST_BYTES {
        return Err(Refusal::TooLong);
    }
    let text = allowed_text(message).ok_or(Refusal::BadByte)?;
    if !message.starts_with(HEADER) {
        return Err(Refusal::NoHeader);
    }
    if !message.ends_with(b"\r") {
        return Err(Refusal::NoEnd);
    }
    check_segments(text)?;
    Ok(Frame { text })
}

/// The message as text, if all its bytes are allowed.
fn allowed_text(message: &[u8]) -> Option<&str> {
    // Without an early way out the compiler compares many bytes at once.
    let allowed = message.iter().fold(true, |so_far, byte| {
        so_far & ((b' '..=b'~').contains(byte) | (*byte == b'\r'))
    });
    if allowed {
        std::str::from_utf8(message).ok()
    } else {
        None
    }
}

fn raw_segments(text: &str) -> impl Iterator<Item = &[u8]> {
    text.split_terminator('\r').map(str::as_bytes)
}

/// Checks 6 to 8. A bad segment anywhere comes before a second header, and
/// that before the count, so only the first may leave the loop.
fn check_segments(text: &str) -> Result<(), Refusal> {
    let mut segments = 0;
    let mut headers = 0;
    for segment in raw_segments(text) {
        let name = match *segment {
            [a, b, c] | [a, b, c, FIELD, ..] if is_name([a, b, c]) => [a, b, c],
            _ => return Err(Refusal::BadSegment),
        };
        segments += 1;
        headers += usize::from(name == *b"MSH");
    }
    if headers > 1 {
        return Err(Refusal::SecondHeader);
    }
    if segments > MOST_SEGMENTS {
        return Err(Refusal::TooMany);
    }
    Ok(())
}

/// Whether this is a segment's name: a capital, then two capitals or digits.
pub fn is_name([first, second, third]: [u8; 3]) -> bool {
    first.is_ascii_uppercase() && is_capital_or_digit(second) && is_capital_or_digit(third)
}

/// Whether the byte is a capital or a digit.
pub fn is_capital_or_digit(byte: u8) -> bool {
    byte.is_ascii_uppercase() || byte.is_ascii_digit()
}

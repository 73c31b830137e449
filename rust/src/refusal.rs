//! Why a call is refused.

use std::error::Error;
use std::fmt;

/// Why a call was refused. What was lent to it is as it was.
///
/// Of several reasons the first in the order of the call is told; each function says its order.
#[derive(Clone, Copy, Debug, PartialEq, Eq, Hash)]
pub enum Refusal {
    /// The message has no bytes.
    Empty = 1,
    /// The message has more than 65,535 bytes.
    TooLong = 2,
    /// A byte is neither printable ASCII nor CR.
    BadByte = 3,
    /// The message does not begin with `MSH`, the five separators and `|`.
    NoHeader = 4,
    /// The last byte is not CR.
    NoEnd = 5,
    /// A segment does not begin with a name and its end or `|`.
    BadSegment = 6,
    /// A later segment is named MSH.
    SecondHeader = 7,
    /// There are more than 512 segments.
    TooMany = 8,
    /// No place can have that name or those numbers.
    BadPlace = 9,
    /// The message has fewer segments of that name.
    NoSegment = 10,
    /// The stamp is not 14 digits that form a date and time, or there is no such day.
    BadStamp = 11,
    /// The reply number is not 1 to 20 capitals or digits.
    BadReplyNumber = 12,
    /// MSH-10 of the message is empty, has a bad escape, or has over 20 bytes when it is read.
    NoControlNumber = 13,
    /// The lent buffer is too short.
    NoRoom = 14,
    /// The message has a fault.
    NotAccepted = 15,
    /// The group is 0 or above the number of OBR segments.
    NoGroup = 16,
    /// The book has no such slot.
    NoSlot = 17,
    /// What stands in the slot is no slip.
    BadSlip = 18,
    /// The slip has no such tag.
    NoTag = 19,
    /// A `\` begins none of the five escapes.
    BadEscape = 20,
}

use Refusal::*;

impl Refusal {
    /// All twenty, by their numbers.
    pub const ALL: [Refusal; 20] = [
        Empty,
        TooLong,
        BadByte,
        NoHeader,
        NoEnd,
        BadSegment,
        SecondHeader,
        TooMany,
        BadPlace,
        NoSegment,
        BadStamp,
        BadReplyNumber,
        NoControlNumber,
        NoRoom,
        NotAccepted,
        NoGroup,
        NoSlot,
        BadSlip,
        NoTag,
        BadEscape,
    ];

    /// The number that a caller gets back, 1 to 20.
    pub fn number(self) -> u8 {
        self as u8
    }

    /// The name of the number.
    pub fn name(self) -> &'static str {
        match self {
            Empty => "EMPTY",
            TooLong => "TOO LONG",
            BadByte => "BAD BYTE",
            NoHeader => "NO HEADER",
            NoEnd => "NO END",
            BadSegment => "BAD SEGMENT",
            SecondHeader => "SECOND HEADER",
            TooMany => "TOO MANY",
            BadPlace => "BAD PLACE",
            NoSegment => "NO SEGMENT",
            BadStamp => "BAD STAMP",
            BadReplyNumber => "BAD REPLY NUMBER",
            NoControlNumber => "NO CONTROL NUMBER",
            NoRoom => "NO ROOM",
            NotAccepted => "NOT ACCEPTED",
            NoGroup => "NO GROUP",
            NoSlot => "NO SLOT",
            BadSlip => "BAD SLIP",
            NoTag => "NO TAG",
            BadEscape => "BAD ESCAPE",
        }
    }
}

impl fmt::Display for Refusal {
    fn fmt(&self, f: &mut fmt::Formatter<'_>) -> fmt::Result {
        write!(f, "refused {}, {}", self.number(), self.name())
    }
}

impl Error for Refusal {}

/// What the number that a call returns means.
pub(crate) fn outcome(returned: u8) -> Result<(), Refusal> {
    if returned == 0 {
        return Ok(());
    }
    // the functions of the archive are proved to return 0 to 20
    Err(Refusal::ALL[usize::from(returned) - 1])
}

#[cfg(test)]
mod tests {
    use super::*;

    #[test]
    fn numbers_are_places_in_the_list() {
        for (i, refusal) in Refusal::ALL.into_iter().enumerate() {
            assert_eq!(usize::from(refusal.number()), i + 1);
            assert_eq!(outcome(refusal.number()), Err(refusal));
        }
        assert_eq!(outcome(0), Ok(()));
    }

    #[test]
    fn is_shown_by_number_and_name() {
        assert_eq!(NoControlNumber.to_string(), "refused 13, NO CONTROL NUMBER");
    }
}

//! The numbers a caller gets back.

/// Why a call was refused; the discriminant is document 01's number.
#[derive(Clone, Copy, Debug, PartialEq, Eq)]
#[repr(u8)]
pub enum Refusal {
    /// No bytes.
    Empty = 1,
    /// Over 65,535 bytes.
    TooLong = 2,
    /// A byte that is neither 20 to 7E nor CR.
    BadByte = 3,
    /// The first nine bytes are not the fixed header.
    NoHeader = 4,
    /// The last byte isn't CR.
    NoEnd = 5,
    /// A segment not of the form, or of no bytes.
    BadSegment = 6,
    /// A later segment named MSH.
    SecondHeader = 7,
    /// Over 512 segments.
    TooMany = 8,
    /// The asked place isn't one.
    BadPlace = 9,
    /// Fewer segments of the asked name.
    NoSegment = 10,
    /// The stamp isn't 14 digits that form a DTM, or its month doesn't have
    /// its day.
    BadStamp = 11,
    /// The reply number isn't 1..20 capitals or digits.
    BadReplyNumber = 12,
    /// MSH-10 is Empty, has a bad escape, or is over its limit once resolved.
    NoControlNumber = 13,
    /// The lent buffer is shorter than the output.
    NoRoom = 14,
    /// The message has a fault.
    NotAccepted = 15,
    /// The group is 0 or above the number of OBR.
    NoGroup = 16,
    /// The book has no such slot.
    NoSlot = 17,
    /// The slot isn't a slip.
    BadSlip = 18,
    /// The tag isn't in the slip.
    NoTag = 19,
    /// The text to resolve has another escape than the five.
    BadEscape = 20,
}

impl Refusal {
    /// The number of document 01.
    pub fn number(self) -> u8 {
        self as u8
    }
}

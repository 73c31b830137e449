//! What a fault is: its place, its reason, and the reason's condition code.

/// A fault: where, and why.
#[derive(Clone, Copy, Debug, PartialEq, Eq)]
pub struct Fault {
    /// Where it stands.
    pub place: Place,
    /// Why it is one.
    pub reason: Reason,
}

/// A place in a message; what a fault does not name is 0.
#[derive(Clone, Copy, Debug, PartialEq, Eq)]
#[allow(missing_docs)]
pub struct Place {
    pub name: [u8; 3],
    /// Counted over the segments of that name.
    pub occurrence: u32,
    pub field: u32,
    pub repetition: u32,
    pub component: u32,
    pub subcomponent: u32,
}

impl Place {
    /// The five numbers, in order.
    pub fn numbers(&self) -> [u32; 5] {
        [
            self.occurrence,
            self.field,
            self.repetition,
            self.component,
            self.subcomponent,
        ]
    }
}

/// Why something is a fault; the discriminant is the number a caller is told.
/// [`NoSuchDay`](Reason::NoSuchDay) has the highest one, though it is tested
/// before the lists.
#[derive(Clone, Copy, Debug, PartialEq, Eq)]
#[repr(u8)]
pub enum Reason {
    /// A segment out of place.
    OutOfPlace = 1,
    /// The end may not stand there.
    EndOutOfPlace = 2,
    /// A required field or leaf is missing.
    Missing = 3,
    /// Too many repetitions.
    TooManyRepetitions = 4,
    /// A leaf over its limit once its escapes are resolved; tested after
    /// [`BadEscape`](Reason::BadEscape).
    TooLong = 5,
    /// A leaf with a bad escape.
    BadEscape = 6,
    /// A leaf not of its type.
    NotOfType = 7,
    /// A leaf not in its list.
    NotInList = 8,
    /// MSH-9.1 not in its list.
    MessageType = 9,
    /// MSH-9.2 not in its list.
    EventCode = 10,
    /// MSH-11.1 not in its list.
    ProcessingId = 11,
    /// MSH-12.1 not in its list.
    VersionId = 12,
    /// A leaf of the form of a DTM whose day isn't in its month.
    NoSuchDay = 13,
}

impl Reason {
    /// The number that a caller is told.
    pub fn number(self) -> u8 {
        self as u8
    }

    /// The condition code of table 0357.
    pub fn condition(self) -> u8 {
        match self {
            Reason::OutOfPlace | Reason::EndOutOfPlace => 100,
            Reason::Missing => 101,
            Reason::TooManyRepetitions
            | Reason::TooLong
            | Reason::BadEscape
            | Reason::NotOfType
            | Reason::NoSuchDay => 102,
            Reason::NotInList => 103,
            Reason::MessageType => 200,
            Reason::EventCode => 201,
            Reason::ProcessingId => 202,
            Reason::VersionId => 203,
        }
    }
}

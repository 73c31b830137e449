//! A core for a relay of newborn-screening results in HL7 2.5.1.
//!
//! [`judge`] says whether a message is accepted, or what its first fault is; [`look_up`] finds the text at a place, [`resolve`] its
//! escapes; [`reply`] writes the acknowledgement; [`file`] puts a group's slip into a book, and [`read_slip`] reads one of its values.
//!
//! The work is done by a library whose every answer is proved equal to a definition (`docs/ENTRIES.md` in the repository). This crate
//! hands over slices and turns numbers into types. Any bytes and any numbers may be handed over; a [`Refusal`] leaves what was lent as it
//! was. A call wants 128 KiB of stack.
//!
//! ```
//! use ithwyral::{judge, reply, Verdict, LONGEST_REPLY};
//!
//! let message = b"MSH|^~\\&|LABSYS|LAB1|DEPOT|D1|20240305101500||ORU^R01^ORU_R01|C7|P|2.5.1\r\
//!     PID|1||A55||LANE^JANE||20240301\r\
//!     OBR|1||F9|54089-8^Panel^LN|||20240304\r\
//!     OBX|1|NM|45222-7^C4-DC^LN||3.16|umol/L|||||F\r";
//! assert_eq!(judge(message)?, Verdict::Accepted);
//! let mut buffer = [0; LONGEST_REPLY];
//! let answer = reply(message, b"20240305101501", b"K1", &mut buffer)?;
//! assert!(answer.ends_with(b"\rMSA|AA|C7\r"));
//! # Ok::<(), ithwyral::Refusal>(())
//! ```

#![deny(missing_docs)]

mod archive;
mod refusal;

pub use refusal::Refusal;

use std::fmt;

/// The bytes of a slot of the book.
pub const SLOT_SIZE: usize = 1024;

/// The bytes of a buffer that has room for every reply: it is never refused as [`Refusal::NoRoom`].
pub const LONGEST_REPLY: usize = 3200;

/// The bytes of the longest message.
pub const LONGEST_MESSAGE: usize = 65_535;

/// The tags of a slip.
pub mod tag {
    /// The message's control number, MSH-10.
    pub const CONTROL_NUMBER: u64 = 1;
    /// The patient, PID-3.1.
    pub const PATIENT: u64 = 2;
    /// The placer's order number, OBR-2.1; a slip may be without.
    pub const PLACER: u64 = 3;
    /// The filler's order number, OBR-3.1.
    pub const FILLER: u64 = 4;
    /// The service, OBR-4.1.
    pub const SERVICE: u64 = 5;
    /// How many OBX the group has, in two bytes, high byte first.
    pub const OBSERVATIONS: u64 = 6;
}

/// A place of a message: where a text stands, or a fault. In a fault, a number is 0 where there is none.
#[derive(Clone, Copy, Debug, PartialEq, Eq, Hash)]
pub struct Place {
    /// The segment's name.
    pub name: [u8; 3],
    /// Which segment of that name, from 1.
    pub occurrence: u64,
    /// Which field, from 1.
    pub field: u64,
    /// Which repetition, from 1.
    pub repetition: u64,
    /// Which component, from 1.
    pub component: u64,
    /// Which subcomponent, from 1.
    pub subcomponent: u64,
}

/// The first fault of a message.
#[derive(Clone, Copy, Debug, PartialEq, Eq, Hash)]
pub struct Fault {
    /// Where it is.
    pub place: Place,
    /// The condition code of its reason, 100 to 103 or 200 to 203.
    pub condition: u64,
    /// Why it is one, 1 to 13: 1 a segment out of place, 2 the message may not end there, 3 a required field or leaf is missing, 4 too many repetitions,
    /// 6 a bad escape, 5 too long when it is read (an escape counts one byte), 7 not of its type, 13 no such day (a date in the form, whose month does
    /// not have its day), 8 not in its list, but for MSH-9.1 (9), MSH-9.2 (10), MSH-11.1 (11) and MSH-12.1 (12).
    pub reason: u64,
}

/// How a message is judged. It is shown as the desk's line.
#[derive(Clone, Copy, Debug, PartialEq, Eq, Hash)]
pub enum Verdict {
    /// The message has no fault.
    Accepted,
    /// The message's first fault.
    Fault(Fault),
}

impl fmt::Display for Verdict {
    fn fmt(&self, f: &mut fmt::Formatter<'_>) -> fmt::Result {
        let fault = match self {
            Verdict::Accepted => return f.write_str("accepted"),
            Verdict::Fault(fault) => fault,
        };
        let p = fault.place;
        write!(f, "fault {}", String::from_utf8_lossy(&p.name))?;
        for number in [
            p.occurrence,
            p.field,
            p.repetition,
            p.component,
            p.subcomponent,
        ] {
            write!(f, " {number}")?;
        }
        write!(f, " {} {}", fault.condition, fault.reason)
    }
}

/// Judges a message: refusals 1 to 8; else accepted, or its first fault.
///
/// ```
/// use ithwyral::{judge, Refusal};
///
/// assert_eq!(judge(b"MSH|^~\\&|LABSYS"), Err(Refusal::NoEnd));
/// assert_eq!(judge(b"MSH|^~\\&|LABSYS\r")?.to_string(), "fault MSH 1 4 1 0 0 101 3");
/// # Ok::<(), Refusal>(())
/// ```
pub fn judge(message: &[u8]) -> Result<Verdict, Refusal> {
    let [reason, condition, a, b, c, occurrence, field, repetition, component, subcomponent] =
        archive::judge(message)?;
    if reason == 0 {
        return Ok(Verdict::Accepted);
    }
    Ok(Verdict::Fault(Fault {
        place: Place {
            // each is a byte of the message
            name: [a as u8, b as u8, c as u8],
            occurrence,
            field,
            repetition,
            component,
            subcomponent,
        },
        condition,
        reason,
    }))
}

/// The text at a place, as the very part of the message; `None` where nothing stands there. Refusals 1 to 8, 9, 10.
///
/// ```
/// use ithwyral::{look_up, Place, Refusal};
///
/// let message = b"MSH|^~\\&|LABSYS|LAB1\r";
/// let mut place = Place { name: *b"MSH", occurrence: 1, field: 4, repetition: 1, component: 1, subcomponent: 1 };
/// assert_eq!(look_up(message, &place)?, Some(&b"LAB1"[..]));
/// place.field = 5;
/// assert_eq!(look_up(message, &place)?, None);
/// place.occurrence = 2;
/// assert_eq!(look_up(message, &place), Err(Refusal::NoSegment));
/// # Ok::<(), Refusal>(())
/// ```
pub fn look_up<'m>(message: &'m [u8], place: &Place) -> Result<Option<&'m [u8]>, Refusal> {
    let numbers = [
        place.occurrence,
        place.field,
        place.repetition,
        place.component,
        place.subcomponent,
    ];
    let [sort, start, end] = archive::look_up(message, &place.name, &numbers)?;
    if sort == 0 {
        return Ok(None);
    }
    Ok(Some(&message[start as usize..end as usize]))
}

/// The text that a person reads, its escapes resolved, written to the front of the buffer; the rest of the buffer stays. Refusals 20, 14.
///
/// A buffer of the text's length has room.
///
/// ```
/// use ithwyral::{resolve, Refusal};
///
/// let mut buffer = [b'.'; 6];
/// assert_eq!(resolve(b"a\\F\\b", &mut buffer)?, b"a|b");
/// assert_eq!(&buffer, b"a|b...");
/// assert_eq!(resolve(b"a\\X\\b", &mut buffer), Err(Refusal::BadEscape));
/// # Ok::<(), Refusal>(())
/// ```
pub fn resolve<'b>(text: &[u8], buffer: &'b mut [u8]) -> Result<&'b [u8], Refusal> {
    let [size] = archive::resolve(text, buffer)?;
    Ok(&buffer[..size as usize])
}

/// The reply to a message, accepted or not, written to the front of the buffer; the rest of the buffer stays. Refusals 1 to 8, 11 to 14.
///
/// The stamp is the reply's date and time, the number its own. A buffer of [`LONGEST_REPLY`] bytes has room for every reply.
///
/// ```
/// use ithwyral::{reply, Refusal, LONGEST_REPLY};
///
/// let message = b"MSH|^~\\&||LAB1|||20240305||ORU^R01|C7|P|2.5.1\r";
/// let mut buffer = [0; LONGEST_REPLY];
/// let answer = reply(message, b"20240305101501", b"K1", &mut buffer)?;
/// assert_eq!(
///     String::from_utf8_lossy(answer).replace('\r', "\n"),
///     "MSH|^~\\&||||LAB1|20240305101501||ACK^R01^ACK|K1|P|2.5.1\n\
///      MSA|AE|C7\n\
///      ERR||MSH^1|100^Segment sequence error^HL70357|E\n",
/// );
/// assert_eq!(reply(message, b"2024", b"K1", &mut buffer), Err(Refusal::BadStamp));
/// # Ok::<(), Refusal>(())
/// ```
pub fn reply<'b>(
    message: &[u8],
    stamp: &[u8],
    number: &[u8],
    buffer: &'b mut [u8],
) -> Result<&'b [u8], Refusal> {
    let [size] = archive::reply(message, stamp, number, buffer)?;
    Ok(&buffer[..size as usize])
}

/// Files the slip of a group of an accepted message, from 1, in a slot of the book, from 0. Refusals 1 to 8, 15 to 17.
///
/// The slot's bytes become the slip; every other byte of the book stays.
///
/// ```
/// use ithwyral::{file, read_slip, tag, Refusal, SLOT_SIZE};
///
/// let message = b"MSH|^~\\&||LAB1|||20240305||ORU^R01|C7|P|2.5.1\r\
///     PID|||A55||LANE||2024\rOBR|1||F9|54089-8|||2024\r";
/// let mut book = vec![0; 10 * SLOT_SIZE];
/// file(message, 1, 4, &mut book)?;
/// assert_eq!(read_slip(&book, 4, tag::PATIENT)?, b"A55");
/// assert_eq!(file(message, 2, 4, &mut book), Err(Refusal::NoGroup));
/// # Ok::<(), Refusal>(())
/// ```
pub fn file(message: &[u8], group: u64, slot: usize, book: &mut [u8]) -> Result<(), Refusal> {
    archive::file(message, group, slot, book)
}

/// The value of a tag of the slip in a slot, as the very part of the book. Refusals 17, 18, 19.
///
/// ```
/// use ithwyral::{read_slip, tag, Refusal, SLOT_SIZE};
///
/// let book = [0; SLOT_SIZE];
/// assert_eq!(read_slip(&book, 0, tag::PATIENT), Err(Refusal::BadSlip));
/// assert_eq!(read_slip(&book, 1, tag::PATIENT), Err(Refusal::NoSlot));
/// ```
pub fn read_slip(book: &[u8], slot: usize, tag: u64) -> Result<&[u8], Refusal> {
    let [start, end] = archive::read_slip(book, slot, tag)?;
    Ok(&book[start as usize..end as usize])
}

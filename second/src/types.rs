//! The simple types, the forms their values take, and whether a DTM's day exists.

use std::ops::RangeInclusive;

use crate::calendar;

/// A simple type.
#[derive(Clone, Copy, Debug, PartialEq, Eq)]
pub enum Simple {
    /// Sequence number.
    Si,
    /// Coded value of an HL7 table.
    Id,
    /// Coded value of a user's table.
    Is,
    /// Number.
    Nm,
    /// Time of day.
    Tm,
    /// Date and time.
    Dtm,
    /// Short text.
    St,
    /// Text.
    Tx,
    /// Formatted text.
    Ft,
}

impl Simple {
    /// The limit in bytes, counted after resolving, where a field has none
    /// of its own.
    pub const fn limit(self) -> usize {
        match self {
            Simple::Si => 4,
            Simple::Id | Simple::Is => 20,
            Simple::Nm | Simple::Tm => 16,
            Simple::Dtm => 24,
            Simple::St => 199,
            Simple::Tx | Simple::Ft => 4_096,
        }
    }

    /// Whether a leaf that isn't Empty has the form of this type.
    pub fn admits(self, text: &[u8]) -> bool {
        match self {
            Simple::Si => is_digits(text),
            Simple::Nm => is_number(text),
            Simple::Tm => is_time(text),
            Simple::Dtm => is_date_time(text),
            Simple::Id | Simple::Is | Simple::St | Simple::Tx | Simple::Ft => true,
        }
    }

    /// Whether a leaf that has the form of this type names a day that there
    /// isn't. No other type than DTM names days.
    pub fn names_no_such_day(self, text: &[u8]) -> bool {
        self == Simple::Dtm && names_no_such_day(text)
    }
}

/// At least one digit, and nothing else.
pub fn is_digits(text: &[u8]) -> bool {
    !text.is_empty() && text.iter().all(u8::is_ascii_digit)
}

/// Optional sign, digits, optionally a point and digits.
pub fn is_number(text: &[u8]) -> bool {
    let unsigned = match text {
        [b'+' | b'-', unsigned @ ..] => unsigned,
        _ => text,
    };
    // One or two parts, as there is a point or not.
    unsigned.splitn(2, |&byte| byte == b'.').all(is_digits)
}

const CLOCK: [RangeInclusive<u8>; 3] = [0..=23, 0..=59, 0..=59];
const CALENDAR_AND_CLOCK: [RangeInclusive<u8>; 5] = [1..=12, 1..=31, 0..=23, 0..=59, 0..=59];
const ZONE: [RangeInclusive<u8>; 2] = [0..=14, 0..=59];

/// `YYYY[MM[DD[HH[MM[SS[.S[S[S[S]]]]]]]]]`, then optionally a zone.
pub fn is_date_time(text: &[u8]) -> bool {
    match text.get(..4) {
        Some(year) => is_digits(year) && is_pairs_and_zone(&text[4..], &CALENDAR_AND_CLOCK),
        None => false,
    }
}

/// Whether a text of the form of a DTM names a day that its month doesn't
/// have. One that stops before the day names none.
pub fn names_no_such_day(text: &[u8]) -> bool {
    // Only a year, a month and a day make eight digits at the front: those of
    // a zone come after its sign.
    match text.get(..8) {
        Some(date) if is_digits(date) => {
            let (year, month, day) = (&date[..4], &date[4..6], &date[6..]);
            !calendar::has_day(value(year), value(month), value(day))
        }
        _ => false,
    }
}

/// The number that a few digits write.
fn value(digits: &[u8]) -> u32 {
    let digits = digits.iter().map(|digit| u32::from(digit - b'0'));
    digits.fold(0, |so_far, digit| so_far * 10 + digit)
}

/// `HH[MM[SS[.S[S[S[S]]]]]]`, then optionally a zone.
pub fn is_time(text: &[u8]) -> bool {
    // The hour is not optional, and only a digit can begin it.
    matches!(text, [b'0'..=b'9', ..]) && is_pairs_and_zone(text, &CLOCK)
}

/// As many two-digit numbers as there are, each in its range; a fraction if
/// none is lacking; then optionally a zone.
fn is_pairs_and_zone(text: &[u8], ranges: &[RangeInclusive<u8>]) -> bool {
    let mut rest = text;
    for range in ranges {
        match *rest {
            [tens @ b'0'..=b'9', units @ b'0'..=b'9', ref after @ ..] => {
                if !is_pair_in(tens, units, range) {
                    return false;
                }
                rest = after;
            }
            _ => return is_zone(rest),
        }
    }
    match rest {
        [b'.', fraction @ ..] => {
            let digits = fraction.iter().take_while(|b| b.is_ascii_digit()).count();
            (1..=4).contains(&digits) && is_zone(&fraction[digits..])
        }
        _ => is_zone(rest),
    }
}

/// Nothing, or a sign and `HHMM`.
fn is_zone(text: &[u8]) -> bool {
    match *text {
        [] => true,
        [b'+' | b'-', h, hh, m, mm] => is_pair_in(h, hh, &ZONE[0]) && is_pair_in(m, mm, &ZONE[1]),
        _ => false,
    }
}

fn is_pair_in(tens: u8, units: u8, range: &RangeInclusive<u8>) -> bool {
    tens.is_ascii_digit()
        && units.is_ascii_digit()
        && range.contains(&((tens - b'0') * 10 + (units - b'0')))
}

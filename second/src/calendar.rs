//! The calendar: which days there are.

/// The days of the months in a common year, January first.
const COMMON_YEAR: [u32; 12] = [31, 28, 31, 30, 31, 30, 31, 31, 30, 31, 30, 31];

/// Whether a month of a year has that day. All years, the year 0 and those
/// before the calendar was made too, go by one rule.
pub fn has_day(year: u32, month: u32, day: u32) -> bool {
    let days = match month {
        2 if is_leap(year) => 29,
        1..=12 => COMMON_YEAR[month as usize - 1],
        _ => 0,
    };
    (1..=days).contains(&day)
}

/// Every fourth year is a leap year; of the years that end a century only
/// every fourth.
fn is_leap(year: u32) -> bool {
    match (year / 100, year % 100) {
        (century, 0) => century % 4 == 0,
        (_, within) => within % 4 == 0,
    }
}

//! Dates about the ends of months and about leap years, and what may stand behind a day. Written from the words of the
//! rule alone, apart from both programs compared.

use crate::random::Random;

/// Years at which a wrong rule of leap years shows: hundredth and four-hundredth ones, the first and the last, those
/// beside, and those before the calendar was made.
pub static YEARS: &[usize] = &[
    0, 1, 4, 96, 100, 104, 200, 300, 400, 800, 1000, 1500, 1582, 1600, 1700, 1896, 1900, 1904, 1996, 1999, 2000, 2001,
    2004, 2022, 2023, 2024, 2025, 2026, 2096, 2100, 2104, 2200, 2300, 2400, 2800, 4000, 8000, 9600, 9900, 9996, 9999,
];

/// Days at and beside the edges of every month, and of the form.
pub static DAYS: &[usize] = &[0, 28, 29, 30, 31, 32];

/// What may follow a day.
pub static TAILS: &[&str] = &[
    "", "00", "23", "2359", "235959", "235959.1", "235959.12", "235959.123", "235959.1234", "+0000", "-0500",
    "23+0100", "2359-1459", "235959+1400", "235959.1-0000", "235959.1234+1459",
];

/// What may not: after it a text is too long, has a bad escape, or is not of the form.
pub static BAD_TAILS: &[&str] = &[
    "2", "24", "235", "2360", "23595", "235960", "235959.", "235959.12345", "2359.5", ".5", "+", "-01", "+010",
    "+01000", "+1500", "-0060", "-1460", " ", "x", "T10", "Z", "235959.1234-1500", "\\E\\", "\\", "\\E", "\\X\\",
    "235959.12345+0100", "235959.1234+14590", "235959.1234\\T\\+0100", "235959.1234\\T\\\\+0100", "\\xxxxxxxxxxxxxxxx",
];

/// Texts that stop before the day; their zones would be wrong days.
pub static NO_DAYS: &[&str] =
    &["2023", "202302", "190002", "2023+0230", "2023-0229", "202302+0031", "202304-0031", "202302-1431", "0000+0030"];

#[derive(Clone, Copy)]
pub struct Date {
    pub year: usize,
    pub month: usize,
    pub day: usize,
}

impl Date {
    pub fn new(year: usize, month: usize, day: usize) -> Date {
        Date { year, month, day }
    }

    /// Eight digits.
    pub fn text(self) -> String {
        format!("{:04}{:02}{:02}", self.year, self.month, self.day)
    }

    /// Whether month and day have the form, and the month has no such day.
    pub fn is_lacking(self) -> bool {
        (1..=12).contains(&self.month) && (1..=31).contains(&self.day) && self.day > days(self.year, self.month)
    }
}

/// How many days a month has.
pub fn days(year: usize, month: usize) -> usize {
    match month {
        4 | 6 | 9 | 11 => 30,
        2 if year % 400 == 0 => 29,
        2 if year % 100 == 0 => 28,
        2 if year % 4 == 0 => 29,
        2 => 28,
        _ => 31,
    }
}

fn year(random: &mut Random) -> usize {
    if random.one_in(2) {
        random.pick(YEARS)
    } else {
        random.between(0, 9_999)
    }
}

/// A day that there is: often a month's last one, and often in February.
pub fn existing(random: &mut Random) -> Date {
    let year = year(random);
    let month = if random.one_in(3) { 2 } else { random.between(1, 12) };
    let last = days(year, month);
    let day = match random.below(8) {
        0..=2 => last,
        3 => last - 1,
        4 => 1,
        _ => random.between(1, last),
    };
    Date { year, month, day }
}

/// A day that its month lacks, though the form allows it.
pub fn lacking(random: &mut Random) -> Date {
    let year = year(random);
    let month = random.pick(&[2, 2, 2, 2, 4, 6, 9, 11]);
    let first = days(year, month) + 1;
    let day = if random.one_in(2) { first } else { random.between(first, 31) };
    Date { year, month, day }
}

/// Any day about an edge of any month.
fn near(random: &mut Random) -> Date {
    let month = random.pick(&[0, 1, 2, 2, 2, 3, 4, 5, 6, 7, 8, 9, 10, 11, 12, 13]);
    Date { year: year(random), month, day: random.pick(DAYS) }
}

/// A text about a day; now and then with one digit altered. What follows the day is mostly good, so that it decides.
pub fn text(random: &mut Random) -> Vec<u8> {
    let date = match random.below(8) {
        0..=3 => lacking(random),
        4 | 5 => near(random),
        _ => existing(random),
    };
    let mut out = date.text().into_bytes();
    if random.one_in(6) {
        let at = random.below(out.len());
        out[at] = random.pick(b"0123456789");
    }
    let tail = if random.one_in(8) { random.pick(BAD_TAILS) } else { random.pick(TAILS) };
    out.extend_from_slice(tail.as_bytes());
    out
}

/// The date of 14 digits whose parts are all in their ranges.
fn date_of_stamp(stamp: &[u8]) -> Option<Date> {
    let digits = stamp.len() == 14 && stamp.iter().all(u8::is_ascii_digit);
    let number: u64 = std::str::from_utf8(stamp).ok().filter(|_| digits)?.parse().ok()?;
    let part = |by: u64| (number / by % 100) as usize;
    let clock = part(10_000) < 24 && part(100) < 60 && part(1) < 60;
    let date = Date::new((number / 10_000_000_000) as usize, part(100_000_000), part(1_000_000));
    Some(date).filter(|date| clock && (1..=12).contains(&date.month) && (1..=31).contains(&date.day))
}

/// Whether nothing but its day is wrong with a stamp.
pub fn is_wrong_by_day_alone(stamp: &[u8]) -> bool {
    date_of_stamp(stamp).map_or(false, Date::is_lacking)
}

#[cfg(test)]
mod tests {
    use super::*;

    #[test]
    fn four_centuries_have_their_days() {
        let sum = |years: std::ops::Range<usize>| -> usize {
            years.flat_map(|year| (1..=12).map(move |month| days(year, month))).sum()
        };
        assert_eq!((sum(0..400), sum(2000..2400), sum(1900..2000)), (146_097, 146_097, 36_524));
        assert_eq!((sum(2023..2024), sum(2024..2025)), (365, 366));
    }

    #[test]
    fn dates_are_as_they_are_called() {
        let mut random = Random::new(3);
        let mut last = 0;
        for _ in 0..2_000 {
            let good = existing(&mut random);
            assert!(good.day >= 1 && good.day <= days(good.year, good.month) && good.text().len() == 8);
            last += usize::from(good.day == days(good.year, good.month));
            assert!(lacking(&mut random).is_lacking());
        }
        assert!(last > 600, "{} of 2000", last);
    }

    #[test]
    fn stamps_are_told_by_their_day() {
        for stamp in ["20240230101501", "19000229000000", "20231131235959"] {
            assert!(is_wrong_by_day_alone(stamp.as_bytes()), "{}", stamp);
        }
        for stamp in ["20240229101501", "20240230101560", "20240230241501", "20240200101501", "20241330101501"] {
            assert!(!is_wrong_by_day_alone(stamp.as_bytes()), "{}", stamp);
        }
        for stamp in ["", "20240230", "2024023010150a", "202402301015011", "2024023010+100", "20240232101501"] {
            assert!(!is_wrong_by_day_alone(stamp.as_bytes()), "{}", stamp);
        }
    }
}

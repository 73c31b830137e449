//! Values of leaves: good ones, ones at a limit, and ones that are nearly good.

use crate::dates;
use crate::profile::Simple;
use crate::random::Random;

const LETTERS: &[u8] = b"ABCDEFGHIJKLMNOPQRSTUVWXYZabcdefghijklmnopqrstuvwxyz0123456789 .,;:-+/()%*=_'\"#<>!?@$[]{}`";
pub const CAPITALS_AND_DIGITS: &[u8] = b"ABCDEFGHIJKLMNOPQRSTUVWXYZ0123456789";
pub const DIGITS: &[u8] = b"0123456789";

pub static ESCAPES: &[&str] = &["\\F\\", "\\S\\", "\\T\\", "\\R\\", "\\E\\"];

/// Texts about escapes, good and bad; the difference may lie in one byte or in how they are read from the left.
pub static NEAR_ESCAPES: &[&str] = &[
    "\\", "\\\\", "\\\\\\", "\\F", "\\E", "F\\", "\\f\\", "\\X\\", "\\H\\", "\\N\\", "\\.br\\", "\\X0D\\", "\\EF\\",
    "\\E\\F\\", "\\F\\S\\", "\\E\\E\\", "\\E\\\\E\\", "\\F\\\\S\\", "\\T\\\\", "\\\\T\\", "\\F\\\\", "\\ \\", "\\F \\",
    "\\E\\F", "\\E\\\\F", "\\R\\R\\R\\", "\\R\\\\R\\\\R\\", "\\S", "\\P\\", "\\FF\\", "\\E\\\\", "a\\T\\b", "a\\Tb",
    "\\1\\",
];

/// Bytes of one set.
pub fn of(random: &mut Random, set: &[u8], length: usize) -> Vec<u8> {
    (0..length).map(|_| random.pick(set)).collect()
}

/// Text of exactly that length without a separator and with good escapes only. Long ones are mostly one byte, so that
/// they are short when spelled.
pub fn text(random: &mut Random, length: usize) -> Vec<u8> {
    let dull = random.pick(LETTERS);
    let mut out = Vec::with_capacity(length);
    while out.len() < length {
        let room = length - out.len();
        if room >= 3 && random.one_in(if length > 60 { 80 } else { 14 }) {
            out.extend_from_slice(random.pick(ESCAPES).as_bytes());
        } else if room > 40 {
            out.resize(out.len() + 30, dull);
        } else {
            out.push(random.pick(LETTERS));
        }
    }
    out
}

/// Bad escapes, to be put into a text. Some are good ones that overlap, some lack one byte.
pub static BAD_ESCAPES: &[&str] =
    &["\\", "\\\\", "\\X\\", "\\f\\", "\\F", "\\E", "\\F\\S\\", "\\T\\T\\", "\\E\\\\", "\\.br\\", "\\T \\"];

/// Text without a separator that has exactly that many bytes once it is resolved: none of them escapes, some, or all.
/// Long ones have runs of one byte, so that they are short when spelled, and seldom are escapes altogether.
pub fn resolving(random: &mut Random, length: usize) -> Vec<u8> {
    let long = length > 60;
    let share = if length > 300 { random.pick(&[0, 5, 5, 5, 30, 100]) } else { random.pick(&[0, 15, 50, 100, 100]) };
    let dull = random.pick(LETTERS);
    let same = random.pick(ESCAPES);
    let mixed = random.one_in(2);
    let mut out = Vec::with_capacity(length);
    let mut left = length;
    while left > 0 {
        if random.percent(share) {
            let escape = if mixed { random.pick(ESCAPES) } else { same };
            out.extend_from_slice(escape.as_bytes());
            left -= 1;
        } else {
            let run = if long { random.between(1, 40).min(left) } else { 1 };
            let byte = if long { dull } else { random.pick(LETTERS) };
            out.resize(out.len() + run, byte);
            left -= run;
        }
    }
    out
}

/// Text with a bad escape at the front, at the end or between, that without it is about as long as a limit.
pub fn spoilt(random: &mut Random, limit: usize) -> Vec<u8> {
    let length = random.pick(&[limit / 3, limit - 1, limit, limit + 1, limit + 1, 2 * limit]);
    let mut out = resolving(random, length);
    let between = random.between(0, out.len());
    let at = random.pick(&[0, out.len(), between]);
    out.splice(at..at, random.pick(BAD_ESCAPES).bytes());
    out
}

fn number(random: &mut Random) -> Vec<u8> {
    let mut out = Vec::new();
    if random.one_in(4) {
        out.push(random.pick(b"+-"));
    }
    let whole = random.between(1, 6);
    out.extend(of(random, DIGITS, whole));
    if random.one_in(2) {
        let part = random.between(1, 4);
        out.push(b'.');
        out.extend(of(random, DIGITS, part));
    }
    out
}

fn two(out: &mut Vec<u8>, value: usize) {
    out.extend_from_slice(&[b'0' + (value / 10) as u8, b'0' + (value % 10) as u8]);
}

/// Hour, minute, second and fraction of a second, as many of these as `steps` says, and perhaps a zone.
fn clock(random: &mut Random, out: &mut Vec<u8>, steps: usize) {
    for top in [23, 59, 59].iter().take(steps) {
        let value = if random.one_in(4) { random.pick(&[0, *top]) } else { random.between(0, *top) };
        two(out, value);
    }
    if steps > 3 {
        let places = random.between(1, 4);
        out.push(b'.');
        out.extend(of(random, DIGITS, places));
    }
}

fn zone(random: &mut Random, out: &mut Vec<u8>) {
    out.push(random.pick(b"+-"));
    let hour = if random.one_in(3) { 14 } else { random.between(0, 14) };
    two(out, hour);
    let minute = random.between(0, 59);
    two(out, minute);
}

/// A moment on a day that there is: a year, and as many of month, day and the clock's parts as `steps` says.
fn moment(random: &mut Random) -> Vec<u8> {
    let steps = random.between(0, 6);
    let mut out = dates::existing(random).text().into_bytes();
    out.truncate(4 + 2 * steps.min(2));
    clock(random, &mut out, steps.saturating_sub(2));
    if random.one_in(3) {
        zone(random, &mut out);
    }
    out
}

fn time(random: &mut Random) -> Vec<u8> {
    let mut out = Vec::new();
    let steps = random.between(1, 4);
    clock(random, &mut out, steps);
    if random.one_in(3) {
        zone(random, &mut out);
    }
    out
}

/// A value that is of its type and within its limit.
pub fn good(random: &mut Random, simple: Simple, limit: usize) -> Vec<u8> {
    match simple {
        Simple::Si => {
            let length = random.between(1, 4);
            of(random, DIGITS, length)
        }
        Simple::Nm => number(random),
        Simple::Dtm => moment(random),
        Simple::Tm => time(random),
        // no other type asks whether there is such a day
        _ if limit >= 8 && random.one_in(25) => dates::lacking(random).text().into_bytes(),
        _ => {
            let usual = random.between(1, 9).min(limit);
            let length = match random.below(40) {
                0 => limit,
                1 => limit - 1,
                2..=4 => random.between(1, limit.min(60)),
                _ => usual,
            };
            if length + 1 >= limit || (length > usual && random.one_in(4)) {
                resolving(random, length)
            } else {
                text(random, length)
            }
        }
    }
}

/// Values that have every part of their type, and so are as long as its limit.
pub const LONGEST_MOMENT: &[u8] = b"20240131235959.1234+1459";
pub const LONGEST_TIME: &[u8] = b"235959.1234-1459";
/// The same on a day that there is not.
pub const LONGEST_LACKING: &[u8] = b"20240231235959.1234+1459";

/// A value one below, at, or one above its limit; of its type where a value of such a length can be. One that has a form
/// may be any text, for it is told its length first.
pub fn at_limit(random: &mut Random, simple: Simple, limit: usize) -> Vec<u8> {
    let length = limit + random.below(3) - 1;
    let any = matches!(simple, Simple::Code | Simple::Short | Simple::Long) || random.one_in(2);
    if any {
        return resolving(random, length);
    }
    let mut whole: Vec<u8> = match simple {
        Simple::Si => of(random, DIGITS, length),
        Simple::Nm if random.one_in(2) => of(random, DIGITS, length),
        Simple::Nm => [b"-".to_vec(), of(random, DIGITS, 5), b".".to_vec(), of(random, DIGITS, length - 7)].concat(),
        Simple::Dtm => LONGEST_MOMENT.to_vec(),
        _ => LONGEST_TIME.to_vec(),
    };
    if length < whole.len() {
        // one digit of the fraction less
        whole.remove(whole.iter().position(|byte| *byte == b'.').unwrap_or(0) + 1);
    } else if length > whole.len() {
        whole.push(b'0');
    }
    whole
}

pub static NEAR_MOMENTS: &[&str] = &[
    "2024", "20240", "202400", "202401", "202412", "202413", "20240100", "20240101", "20240131", "20240132",
    "20240230", "20240229", "20230229", "20240431", "2024023123", "20240230+0100", "2024010100", "2024010123",
    "2024010124", "202401012359", "202401012360", "20240101235959", "20240101235960", "20240101235959.",
    "20240101235959.1", "20240101235959.12", "20240101235959.123", "20240101235959.1234", "20240101235959.12345",
    "20240101235959.12a", "2024+0000", "2024-0000", "2024+1459", "2024+1500", "2024-1460", "2024-1400", "2024+",
    "2024-", "2024+0", "2024+01", "2024+010", "2024+01000", "20240101-0500", "202401011+0500", "2024 ", " 2024",
    "2024.5", "202401.5", "2024010123.5", "202401012359.5", "0000", "9999", "000001", "202", "2", "A024", "20A4",
    "2024++000", "2024+-100", "+0100", "-", ".", "2024+0100+0100", "20240101T10", "20240101235959.+0100",
    "20240101235959.1234+1459", "20240101235959+1459", "2024010123595", "202401012", "2024013", "202401-0100",
    "2024/1", "2024\\E\\", "2024:1",
];

pub static NEAR_TIMES: &[&str] = &[
    "00", "23", "24", "29", "2", "235", "2359", "2360", "0060", "235959", "235960", "23595", "235959.", "235959.1",
    "235959.12", "235959.1234", "235959.12345", "23.5", "2359.5", "23+0000", "23-0000", "23+1459", "23+1500",
    "23+1460", "23+", "23+14", "23+145", "23+14590", "235959.1234+1459", "235959+1400", "+0100", "-", "235959.+0100",
    "2 ", " 23", "ab", "2a", "23:59", "20240101", "23\\F\\", "0230", "0231", "202302", "190002.29", "202302+0031",
    "20240230", "20230229", "20230229+0100",
];

pub static NEAR_NUMBERS: &[&str] = &[
    "0", "-0", "+0", "+", "-", ".", "1.", ".5", "1.5", "-1.5", "+1.5", "1..5", "1.5.", "1.5.2", "--1", "+-1", "-+1",
    "1-", "1+", "1e5", "1E5", "1 ", " 1", "0x1", "1,5", "-.5", "-1.", "+.", "-.", "0000000000000000",
    "-000000000000.00", "00000000000000.0", "1/2", "1:2", "a", "1a", "a1", "\\E\\1", "1\\.5",
];

pub static NEAR_INDEXES: &[&str] = &[
    "0", "1", "9999", "0000", "10000", "00001", "1a", "a", "-1", "+1", "1.", "1.0", " 1", "1 ", "1:", "/1", "\\F\\",
    "1\\", "\\",
];

/// Digits, perhaps a point and a zone: of a type by chance.
fn loose(random: &mut Random, simple: Simple) -> Vec<u8> {
    let length = match simple {
        Simple::Si => random.between(1, 5),
        Simple::Nm => random.between(0, 6),
        Simple::Tm => random.between(1, 3) * 2,
        _ => random.between(2, 7) * 2,
    };
    let mut out = of(random, DIGITS, length);
    for mark in [&b"."[..], b"+-"] {
        if random.one_in(4) {
            let length = if random.one_in(2) { 4 } else { random.between(0, 5) };
            out.push(random.pick(mark));
            out.extend(of(random, DIGITS, length));
        }
    }
    out
}

/// A value on the edge of its type.
pub fn near(random: &mut Random, simple: Simple) -> Vec<u8> {
    if simple == Simple::Dtm && random.one_in(3) {
        return dates::text(random);
    }
    if random.one_in(4) && matches!(simple, Simple::Si | Simple::Nm | Simple::Dtm | Simple::Tm) {
        return loose(random, simple);
    }
    let list = match simple {
        Simple::Si => NEAR_INDEXES,
        Simple::Nm => NEAR_NUMBERS,
        Simple::Dtm => NEAR_MOMENTS,
        Simple::Tm => NEAR_TIMES,
        _ => NEAR_ESCAPES,
    };
    random.pick(list).as_bytes().to_vec()
}

/// A code that looks like one of a list.
pub fn near_code(random: &mut Random, list: &[&str]) -> Vec<u8> {
    let code = random.pick(list).as_bytes().to_vec();
    match random.below(14) {
        0 => code.to_ascii_lowercase(),
        1 => code[..code.len() - 1].to_vec(),
        2 => code[1..].to_vec(),
        3 => [&code[..], b"X"].concat(),
        4 => [&code[..], b" "].concat(),
        5 => [b" ", &code[..]].concat(),
        6 => [&code[..], &code[..]].concat(),
        7 => [&code[..], random.pick(NEAR_ESCAPES).as_bytes()].concat(),
        8 => random.pick(ESCAPES).as_bytes().to_vec(),
        9..=11 => of(random, CAPITALS_AND_DIGITS, code.len()),
        12 => {
            let length = random.between(20, 21);
            resolving(random, length)
        }
        _ => code,
    }
}

#[cfg(test)]
mod tests {
    use super::*;
    use crate::resolved;

    #[test]
    fn texts_have_the_asked_length() {
        let mut random = Random::new(1);
        for length in 0..300 {
            assert_eq!(text(&mut random, length).len(), length);
        }
    }

    #[test]
    fn texts_have_the_asked_length_once_resolved() {
        let mut random = Random::new(4);
        let mut altogether = 0;
        for length in (0..300).chain([4_095, 4_096, 4_097]) {
            let made = resolving(&mut random, length);
            assert_eq!((resolved::length(&made), resolved::has_bad_escape(&made)), (length, false));
            altogether += usize::from(made.len() == 3 * length);
        }
        assert!(altogether > 60, "{}", altogether);
    }

    #[test]
    fn spoilt_texts_have_a_bad_escape_and_are_often_too_long() {
        let mut random = Random::new(5);
        for limit in [3, 4, 16, 20, 24, 60, 199, 4_096] {
            let made: Vec<Vec<u8>> = (0..100).map(|_| spoilt(&mut random, limit)).collect();
            let bad = made.iter().filter(|text| resolved::has_bad_escape(text)).count();
            let over = made.iter().filter(|text| resolved::length(text) > limit).count();
            let short = made.iter().filter(|text| text.len() <= limit).count();
            assert!(bad > 90 && over > 40 && short > 0, "{}: {} {} {}", limit, bad, over, short);
        }
    }

    #[test]
    fn limits_are_met_from_both_sides() {
        let mut random = Random::new(2);
        let types = [(Simple::Si, 4), (Simple::Nm, 16), (Simple::Dtm, 24), (Simple::Tm, 16), (Simple::Short, 199)];
        for (simple, limit) in types {
            let values: Vec<Vec<u8>> = (0..200).map(|_| at_limit(&mut random, simple, limit)).collect();
            for wanted in [limit - 1, limit, limit + 1] {
                let met = |escapes: bool| {
                    values
                        .iter()
                        .filter(|value| resolved::length(value) == wanted && value.contains(&b'\\') == escapes)
                        .count()
                };
                assert!(met(false) >= 5 && met(true) >= 5, "{:?} {}", simple, wanted);
            }
        }
    }
}

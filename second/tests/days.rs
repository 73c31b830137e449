//! The day of a DTM and of a stamp must be in its month.

mod common;
use common::*;
use second::calendar::has_day;
use second::reply::MOST_BYTES;
use second::types::{is_date_time, names_no_such_day};
use second::Refusal;

/// The last days of the months in a common year.
const LAST_DAYS: [(u32, u32); 12] = [
    (1, 31),
    (2, 28),
    (3, 31),
    (4, 30),
    (5, 31),
    (6, 30),
    (7, 31),
    (8, 31),
    (9, 30),
    (10, 31),
    (11, 30),
    (12, 31),
];

/// Years that have 29 February, and years that have not.
const LEAP: &[&str] = &[
    "0000", "0004", "0096", "0400", "0800", "1600", "1996", "2000", "2024", "2396", "2400", "9996",
];
const COMMON: &[&str] = &[
    "0001", "0002", "0100", "0200", "0300", "0500", "1700", "1900", "1999", "2001", "2022", "2023",
    "2026", "2100", "2200", "2300", "9900", "9998", "9999",
];

/// What may follow a day.
const TAILS: &[&str] = &[
    "",
    "00",
    "23",
    "2359",
    "235959",
    "235959.1",
    "235959.12",
    "235959.123",
    "235959.1234",
    "+0100",
    "-0500",
    "23+0000",
    "2359-1459",
    "235959+1400",
    "235959.1-0000",
    "235959.1234+1459",
];

/// The leaves of type DTM, as a fault names them.
const LEAVES: [(&str, usize); 5] = [("MSH", 7), ("PID", 7), ("OBR", 7), ("OBX", 5), ("OBX", 14)];

/// M with a text in one of the leaves of type DTM.
fn dated(name: &str, field: usize, text: &str) -> Vec<u8> {
    match (name, field) {
        ("OBX", 5) => m_with_obx(&set(&set(OBX, 2, "DTM"), 5, text)),
        _ => m_with(name, field, text),
    }
}

/// The reason that a text in OBR-7 is a fault for, or 0.
fn reason(text: &str) -> u32 {
    let verdict = line(&dated("OBR", 7, text));
    match verdict.strip_prefix("fault OBR 1 7 1 1 1 102 ") {
        Some(reason) => reason.parse().unwrap(),
        None => {
            assert_eq!(verdict, "accepted", "{:?}", text);
            0
        }
    }
}

fn date(year: u32, month: u32, day: u32) -> String {
    format!("{:04}{:02}{:02}", year, month, day)
}

#[test]
fn the_last_day_of_each_month_and_the_day_after() {
    for year in [2023, 2024] {
        for (month, last) in LAST_DAYS {
            let last = last + u32::from(year == 2024 && month == 2);
            assert_eq!(reason(&date(year, month, 1)), 0);
            assert_eq!(reason(&date(year, month, last)), 0);
            // 31 is the highest that has the form, whatever the month.
            for day in last + 1..=31 {
                assert_eq!(reason(&date(year, month, day)), 13);
            }
            for day in [0, 32, 39, 99] {
                assert_eq!(reason(&date(year, month, day)), 7);
            }
        }
        for month in [0, 13, 20, 99] {
            assert_eq!(reason(&date(year, month, 31)), 7);
        }
    }
}

#[test]
fn february_29_by_the_year() {
    for (years, expected) in [(LEAP, 0), (COMMON, 13)] {
        for year in years {
            assert_eq!(reason(&format!("{}0229", year)), expected, "{}", year);
            assert_eq!(reason(&format!("{}0228", year)), 0, "{}", year);
            assert_eq!(reason(&format!("{}0230", year)), 13, "{}", year);
        }
    }
}

#[test]
fn what_follows_the_day_does_not_matter() {
    for tail in TAILS {
        for (date, expected) in [
            ("20240229", 0),
            ("20240230", 13),
            ("20230229", 13),
            ("20231231", 0),
            ("19000229", 13),
            ("20240431", 13),
        ] {
            let text = format!("{}{}", date, tail);
            assert_eq!(reason(&text), expected, "{:?}", text);
        }
    }
}

#[test]
fn no_day_is_never_a_wrong_one() {
    // The zone of `2023+0230` is two hours and a half, no day.
    for text in [
        "2023",
        "202302",
        "0000",
        "190002",
        "2023+0230",
        "2023-0229",
        "202302+0031",
        "202304-0031",
        "202302-1431",
    ] {
        assert_eq!(reason(text), 0, "{:?}", text);
    }
}

#[test]
fn each_date_time_is_tested() {
    for (name, field) in LEAVES {
        let place = format!("fault {} 1 {} 1 1 1 102", name, field);
        assert_eq!(line(&dated(name, field, "20240229")), "accepted");
        for (text, reason) in [
            ("20240230", 13),
            ("20230229", 13),
            ("19000229235959.1234+0100", 13),
            ("20240631-0500", 13),
            ("20240232", 7),
            ("20241301", 7),
        ] {
            let expected = format!("{} {}", place, reason);
            assert_eq!(line(&dated(name, field, text)), expected, "{:?}", text);
        }
    }
}

#[test]
fn only_date_times_are_tested() {
    for (two, expected) in [
        ("ST", "accepted"),
        ("TX", "accepted"),
        ("FT", "accepted"),
        ("CE", "accepted"),
        ("NM", "accepted"),
        ("SN", "accepted"),
        ("TM", "fault OBX 1 5 1 1 1 102 7"),
        ("DTM", "fault OBX 1 5 1 1 1 102 13"),
        ("TS", "fault OBX 1 2 1 1 1 103 8"),
        ("", "fault OBX 1 2 1 0 0 101 3"),
    ] {
        let obx = set(&set(OBX, 2, two), 5, "20230229");
        assert_eq!(line(&m_with_obx(&obx)), expected, "{:?}", two);
    }
    // Times whose digits could be read as a month and a wrong day.
    for time in ["02", "0230", "0231", "0230+0031"] {
        let obx = set(&set(OBX, 2, "TM"), 5, time);
        assert_eq!(line(&m_with_obx(&obx)), "accepted", "{:?}", time);
    }
    // Places that are not listed, and leaves of other types.
    for (name, field, text) in [
        ("MSH", 10, "20240230"),
        ("PID", 29, "20240230"),
        ("OBR", 8, "20240230"),
        ("OBR", 7, "20240304^20240230"),
        ("OBR", 7, "20240304&20240230"),
        ("OBX", 14, "^20240230"),
        ("OBX", 12, "20240230"),
        ("PID", 3, "20240230"),
    ] {
        assert_eq!(line(&m_with(name, field, text)), "accepted", "{:?}", text);
    }
    let unlisted = message(&[MSH, PID, "ZDT|20240230", OBR]);
    assert_eq!(line(&unlisted), "accepted");
}

#[test]
fn escape_length_and_form_come_before_the_day() {
    for (text, expected) in [
        ("20240230235959.12345+0100", 5),
        ("2024023023595959595959595", 5),
        (r"20240230\zzzzzzzzzzzzzzzz", 6),
        (r"20240230235959.1234+01\F\\F\\F\", 5),
        (r"20240230\", 6),
        (r"20240230\X\", 6),
        (r"20240230\F\", 7),
        (r"20240230235959.1234+01\F\\F\", 7),
        ("20240230 ", 7),
        (" 20240230", 7),
        ("20240230x", 7),
        ("202402301", 7),
        ("2024023024", 7),
        ("202402302360", 7),
        ("20240230235960", 7),
        ("20240230235959.", 7),
        ("20240230235959.12345", 7),
        ("202402302359.1", 7),
        ("20240230+1500", 7),
        ("20240230+0060", 7),
        ("20240230+010", 7),
        ("20240230-", 7),
        ("2024-02-30", 7),
        ("2024023O", 7),
        ("20240230", 13),
    ] {
        assert_eq!(reason(text), expected, "{:?}", text);
    }
}

#[test]
fn the_day_among_other_faults() {
    let bad_list = set(&set(MSH, 9, "ORM^R01"), 7, "20240230101500");
    let bad_both = message(&[&bad_list, PID, OBR]);
    assert_eq!(line(&bad_both), "fault MSH 1 7 1 1 1 102 13");
    // Reason 8 of a later and of an earlier field; reason 4 of the same field.
    let obx = set(&set(&set(OBX, 2, "DTM"), 5, "20240230"), 11, "?");
    assert_eq!(line(&m_with_obx(&obx)), "fault OBX 1 5 1 1 1 102 13");
    let obx = set(&set(OBX, 11, "?"), 14, "20240230");
    assert_eq!(line(&m_with_obx(&obx)), "fault OBX 1 11 1 1 1 103 8");
    let pid = set(&set(PID, 7, "20240230"), 8, "?");
    let twice = message(&[MSH, &pid, OBR]);
    assert_eq!(line(&twice), "fault PID 1 7 1 1 1 102 13");
    assert_eq!(
        line(&m_with("OBR", 7, "20240230~20240230")),
        "fault OBR 1 7 2 0 0 102 4"
    );
    assert_eq!(
        line(&m_with("OBR", 7, "~20240230")),
        "fault OBR 1 7 2 0 0 102 4"
    );
    // Out of place comes before it, the end after it.
    let pid = set(PID, 7, "20240230");
    assert_eq!(line(&message(&[MSH, &pid])), "fault PID 1 7 1 1 1 102 13");
    assert_eq!(
        line(&message(&[MSH, PID, &pid])),
        "fault PID 2 0 0 0 0 100 1"
    );
}

#[test]
fn the_day_in_a_later_segment() {
    let obx = set(&set(OBX, 2, "DTM"), 5, "20230229+0100");
    let later = message(&[MSH, PID, OBR, OBX, NTE, OBX, ORC, OBR, OBX, &obx]);
    assert_eq!(line(&later), "fault OBX 4 5 1 1 1 102 13");
    let obr = set(OBR, 7, "20240431");
    let later = message(&[MSH, PID, OBR, OBX, "ZOB", &obr, OBX]);
    assert_eq!(line(&later), "fault OBR 2 7 1 1 1 102 13");
}

#[test]
fn a_message_with_such_a_day_is_not_filed() {
    let mut book = [b'#'; 1_024];
    let filed = second::file(&dated("OBR", 7, "20240230"), 1, 0, &mut book);
    assert_eq!(filed.map_err(Refusal::number), Err(15));
    assert_eq!(book, [b'#'; 1_024]);
}

#[test]
fn the_reply_to_such_a_day() {
    let expected = "MSH|^~\\&|DEPOT|D1|LABSYS|LAB1|20240305101501||ACK^R01^ACK|K1|P|2.5.1\n\
                    MSA|AE|C7\n\
                    ERR||OBR^1^7^1^1^1|102^Data type error^HL70357|E\n";
    let replied = reply(&dated("OBR", 7, "20240230"));
    assert_eq!(replied, Ok(expected.to_string()));
}

/// What becomes of a reply to M with that stamp.
fn stamped(message: &[u8], stamp: &str, number: &str) -> Result<usize, u8> {
    let mut buffer = [b'.'; MOST_BYTES];
    let written = second::reply(message, stamp.as_bytes(), number.as_bytes(), &mut buffer);
    let kept = written.unwrap_or(0);
    assert!(buffer[kept..].iter().all(|&byte| byte == b'.'));
    written.map_err(Refusal::number)
}

#[test]
fn stamps() {
    for (years, good) in [(LEAP, true), (COMMON, false)] {
        for year in years {
            let stamp = format!("{}0229235959", year);
            assert_eq!(stamped(&m(), &stamp, "K1").is_ok(), good, "{}", stamp);
        }
    }
    for (month, last) in LAST_DAYS {
        for day in 1..=33 {
            let stamp = format!("{}101501", date(2023, month, day));
            let expected = if day <= last { Ok(79) } else { Err(11) };
            assert_eq!(stamped(&m(), &stamp, "K1"), expected, "{}", stamp);
        }
    }
}

#[test]
fn the_stamp_in_its_turn() {
    let stamp = "20240230101501";
    let no_control_number = m_with("MSH", 10, "");
    assert_eq!(stamped(b"", stamp, ""), Err(1));
    assert_eq!(stamped(&message(&[MSH, PID, "bad"]), stamp, ""), Err(6));
    assert_eq!(stamped(&no_control_number, stamp, "k1"), Err(11));
    assert_eq!(stamped(&no_control_number, "20240229101501", "k1"), Err(12));
    assert_eq!(stamped(&no_control_number, "20240229101501", "K1"), Err(13));
    // A fault of the message, of its day too, is none of the stamp.
    let faulty = dated("PID", 7, "20240230");
    assert_eq!(stamped(&faulty, stamp, "K1"), Err(11));
    assert!(stamped(&faulty, "20240229101501", "K1").is_ok());
}

/// How many days of the calendar lie before that one, counted without
/// months' lengths: the year begins with March, and five months have 153
/// days.
fn days_before(year: i64, month: i64, day: i64) -> i64 {
    let (year, month) = match month {
        1 | 2 => (year - 1, month + 9),
        _ => (year, month - 3),
    };
    let leaps = year.div_euclid(4) - year.div_euclid(100) + year.div_euclid(400);
    365 * year + leaps + (153 * month + 2) / 5 + day
}

#[test]
fn the_calendar_has_each_day_once() {
    let mut next = days_before(0, 1, 1);
    for year in 0..10_000 {
        for month in 1..=12 {
            let days = (0..=40).filter(|day| has_day(year, month, *day));
            for day in days {
                let number = days_before(i64::from(year), i64::from(month), i64::from(day));
                assert_eq!(number, next, "{} {} {}", year, month, day);
                next += 1;
            }
        }
        assert!(!has_day(year, 0, 1) && !has_day(year, 13, 1));
    }
    assert_eq!(next, days_before(10_000, 1, 1));
    // Four centuries after another have the same days.
    assert_eq!(next - days_before(0, 1, 1), 25 * 146_097);
}

#[test]
fn texts_of_the_form_have_their_day_read() {
    for text in ["2024", "202402", "2024+0231", "202402-0031"] {
        assert!(is_date_time(text.as_bytes()) && !names_no_such_day(text.as_bytes()));
    }
    for text in ["20240230", "2024023023", "20240230+0000", "00010229"] {
        assert!(is_date_time(text.as_bytes()) && names_no_such_day(text.as_bytes()));
    }
}

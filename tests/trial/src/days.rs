//! Every edge of the rule that a month must have its day, once, on short messages: in each field that has a date, beside
//! other faults, where the rule does not reach, and in stamps.

use crate::corpus::Corpus;
use crate::dates::{Date, BAD_TAILS, DAYS, NO_DAYS, TAILS, YEARS};
use crate::draft::Draft;
use crate::lent::{REPLY_NUMBER, STAMP};
use crate::numbers::{MOST_REPLY_BYTES, SLOT_BYTES};
use crate::profile::DATED;
use crate::short::{GROUP, HEADER, NOTE, OBSERVATION, ORDER, PATIENT, START};
use crate::tour;
use crate::worked::segment;

/// A common year and a leap year.
const TWO_YEARS: [usize; 2] = [2023, 2024];
/// A day that there is not, and a text that has not the form.
const LACKING: &str = "20240230";
const FORMLESS: &str = "20240232";
/// A stamp on a day that there is not, and one on the last day of a long February.
const LACKING_STAMP: &str = "20240230101501";
const LEAP_STAMP: &str = "20240229101501";

/// Puts a text in a field of the first segment of its name; OBX-5 becomes a date.
fn put(draft: &mut Draft, (name, number): (&str, usize), text: &str) {
    let at = draft.named(name.as_bytes())[0];
    if (name, number) == ("OBX", 5) {
        *draft.segments[at].field(2) = b"DTM".to_vec();
    }
    *draft.segments[at].field(number) = text.as_bytes().to_vec();
}

/// A short message with a text in one field.
pub fn with(field: (&str, usize), text: &str) -> Vec<u8> {
    let lines = [HEADER, PATIENT, GROUP, OBSERVATION];
    let mut draft = Draft { segments: lines.iter().map(|line| segment(line.trim_end())).collect() };
    put(&mut draft, field, text);
    draft.write()
}

/// The days about the end of every month, and in two months that there are not.
pub fn about_month_ends() -> Vec<Date> {
    let mut dates = Vec::new();
    for year in TWO_YEARS {
        for month in 0..=13 {
            let days = if (1..=12).contains(&month) { DAYS } else { &[1, 31] };
            dates.extend(days.iter().map(|day| Date::new(year, month, *day)));
        }
    }
    dates
}

/// In each field: the ends of the months, 29 February of many years, what stops before a day.
fn add_dates(corpus: &mut Corpus) {
    for field in DATED {
        for date in about_month_ends() {
            corpus.judge(&with(*field, &date.text()));
        }
        for year in YEARS {
            corpus.judge(&with(*field, &Date::new(*year, 2, 29).text()));
        }
        for text in NO_DAYS {
            corpus.judge(&with(*field, text));
        }
    }
    // the days beside it, each year in one of the fields
    for (at, year) in YEARS.iter().enumerate() {
        for day in [28, 30] {
            corpus.judge(&with(DATED[at % DATED.len()], &Date::new(*year, 2, day).text()));
        }
    }
}

/// In each field: what follows the day, well or wrongly, and parts that are not listed.
fn add_texts(corpus: &mut Corpus) {
    let shapes = ["@^x", "@&x", "^@", "&@", "2024^@", "2024&@", "@~2024", "2024~@", "~@", "@~"];
    for field in DATED {
        for date in [LACKING, "20240229"] {
            for tail in TAILS {
                corpus.judge(&with(*field, &[date, tail].concat()));
            }
        }
        for tail in BAD_TAILS {
            corpus.judge(&with(*field, &[LACKING, tail].concat()));
        }
        for shape in shapes {
            corpus.judge(&with(*field, &shape.replace('@', LACKING)));
        }
    }
    for tail in BAD_TAILS {
        corpus.judge(&with(("OBR", 7), &["20240229", tail].concat()));
    }
}

/// Fields that are not listed, or have no date.
pub static ELSEWHERE: &[(&str, usize)] = &[
    ("MSH", 8),
    ("MSH", 10),
    ("MSH", 13),
    ("PID", 2),
    ("PID", 3),
    ("PID", 5),
    ("PID", 25),
    ("PID", 29),
    ("PID", 33),
    ("OBR", 2),
    ("OBR", 3),
    ("OBR", 4),
    ("OBR", 6),
    ("OBR", 8),
    ("OBR", 14),
    ("OBR", 22),
    ("OBX", 3),
    ("OBX", 4),
    ("OBX", 6),
    ("OBX", 7),
    ("OBX", 8),
    ("OBX", 12),
    ("OBX", 15),
    ("OBX", 17),
    ("OBX", 19),
];

fn add_elsewhere(corpus: &mut Corpus) {
    for field in ELSEWHERE {
        for text in [LACKING, "20230229101501"] {
            corpus.judge(&with(*field, text));
        }
    }
    for line in ["ZZX|@\r", "PV1|@\r", "OBZ|1|DTM|P||@||||||F|||@\r", "NTE|1||@\r", "NTE|1|@|a~@\r", "NTE|1||a||@\r"] {
        corpus.judge(&[START, &line.replace('@', LACKING)].concat().into_bytes());
    }
}

/// Such a day in a later observation and in a later group.
fn add_later(corpus: &mut Corpus) {
    for text in [LACKING, "20230229+0100", "19000229235959.5"] {
        let value = ["OBX|1|DTM|P||", text, "||||||F\r"].concat();
        let observed = ["OBX|1||P||||||||F|||", text, "\r"].concat();
        let group = ["OBR|1||F|P|||", text, "\r"].concat();
        let good = "OBX|1|DTM|P||20240229||||||F|||20240229\r";
        for lines in [
            &[OBSERVATION, &value[..]][..],
            &[good, &value],
            &[OBSERVATION, NOTE, &value],
            &[OBSERVATION, "ZZX\r", &observed],
            &[good, OBSERVATION, &observed],
            &[GROUP, &value],
            &[good, GROUP, OBSERVATION, &value],
            &[good, ORDER, GROUP, NOTE, &observed, &value],
            &[&group],
            &[good, ORDER, &group, good],
            &[NOTE, GROUP, "ZZX\r", &group, &value],
        ] {
            corpus.judge(&[START, &lines.concat()].concat().into_bytes());
        }
    }
}

/// Other wrongs: in a field each, before and after the dates, and with every other reason.
static OTHERS: &[(&str, usize, &str)] = &[
    ("MSH", 4, ""),
    ("MSH", 9, "X^R01"),
    ("MSH", 9, "ORU^X"),
    ("MSH", 11, "X"),
    ("MSH", 12, "2.3"),
    ("PID", 1, "x"),
    ("PID", 3, "A~A~A~A~A~A"),
    ("PID", 8, "?"),
    ("NK1", 3, ""),
    ("ORC", 1, "X"),
    ("OBR", 4, "\\"),
    ("OBR", 25, "?"),
    ("OBX", 4, "123456789012345678901"),
    ("OBX", 8, "~~~~~"),
    ("OBX", 11, ""),
    ("NTE", 1, "x"),
];

/// A message with every listed field and such a day in one of them.
fn full_with(field: (&str, usize), text: &str) -> Draft {
    let mut draft = tour::full("DTM");
    put(&mut draft, field, text);
    draft
}

/// Such a day beside another wrong: the first of the walk is told.
fn add_beside(corpus: &mut Corpus) {
    for field in DATED {
        for (name, number, text) in OTHERS {
            let mut draft = full_with(*field, LACKING);
            put(&mut draft, (name, *number), text);
            corpus.judge(&draft.write());
        }
        // out of place before the patient, after all, and an end that may not stand there
        for (at, line) in [(1, "NTE"), (7, "PID"), (7, "ORC|RE")] {
            let mut draft = full_with(*field, LACKING);
            draft.segments.insert(at, segment(line));
            corpus.judge(&draft.write());
        }
    }
    for (at, one) in DATED.iter().enumerate() {
        for other in &DATED[at + 1..] {
            for (first, second) in [(LACKING, FORMLESS), (FORMLESS, LACKING), (LACKING, LACKING)] {
                let mut draft = full_with(*one, first);
                put(&mut draft, *other, second);
                corpus.judge(&draft.write());
            }
        }
    }
}

/// What the other entries answer to such a message.
fn add_entries(corpus: &mut Corpus) {
    for field in DATED {
        let message = with(*field, LACKING);
        corpus.replies(&message);
        corpus.file(&message, 1, 0, &[b'#'; SLOT_BYTES]);
        corpus.look(&message, field.0, [1, field.1 as u64, 1, 1, 1]);
        let good = with(*field, "20240229");
        corpus.reply(&good, MOST_REPLY_BYTES);
        corpus.file(&good, 1, 0, &[b'#'; SLOT_BYTES]);
    }
}

fn add_stamps(corpus: &mut Corpus) {
    let mut reply = |stamp: &str| corpus.reply_with(START.as_bytes(), stamp, REPLY_NUMBER, 100);
    for date in about_month_ends() {
        reply(&[&date.text(), "101501"].concat());
    }
    for year in YEARS {
        for clock in ["000000", "235959"] {
            reply(&[&Date::new(*year, 2, 29).text(), clock].concat());
        }
    }
    for tail in ["", "1015", "10150", "1015011", "101501.1", "101501+0100", "10150a", "241501", "106001", "101560"] {
        reply(&[LACKING, tail].concat());
    }
}

/// A stamp on such a day in its turn: after the frame, before the reply number, the control number and the room.
fn add_stamp_order(corpus: &mut Corpus) {
    let start = START.as_bytes();
    let frames = [&b""[..], b"MSH", &start[..start.len() - 1], b"MSH|^~\\&|\rnte\r", b"MSH|^~\\&|\rMSH\r"];
    let no_control = with(("MSH", 10), "");
    let faulty = with(("OBR", 7), LACKING);
    for stamp in [LACKING_STAMP, LEAP_STAMP, STAMP] {
        for frame in frames {
            corpus.reply_with(frame, stamp, "k1", 0);
        }
        for message in [start, &no_control, &faulty] {
            for (number, room) in [("k1", 0), ("K1", 0), ("k1", 200), ("K1", 200)] {
                corpus.reply_with(message, stamp, number, room);
            }
        }
    }
}

pub fn add(corpus: &mut Corpus) {
    add_dates(corpus);
    add_texts(corpus);
    add_elsewhere(corpus);
    add_later(corpus);
    add_beside(corpus);
    add_entries(corpus);
    add_stamps(corpus);
    add_stamp_order(corpus);
}

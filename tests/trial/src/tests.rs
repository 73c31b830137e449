//! The generator as a whole, held against the second program.

use crate::dates::{self, Date};
use crate::days;
use crate::draft::Draft;
use crate::generator::Generator;
use crate::large;
use crate::lengths::{self, Spot};
use crate::lent;
use crate::numbers::{MOST_BYTES, MOST_SEGMENTS, SLOT_BYTES};
use crate::profile::{list, Simple, DATED, TYPES};
use crate::round::Round;
use crate::slips;
use crate::spelling;
use crate::table::Table;
use crate::tour;
use crate::worked;
use crate::{frame, leaves, order};

fn judged(message: &[u8]) -> String {
    let mut line = b"judge".to_vec();
    spelling::word(message, &mut line);
    String::from_utf8_lossy(&spelling::answer(&line)).into_owned()
}

#[test]
fn worked_messages_are_answered_as_written() {
    for (message, answer) in worked::messages() {
        assert_eq!(judged(&message), answer);
    }
}

#[test]
fn the_worked_reply_and_slip_are_made() {
    let (message, _) = &worked::messages()[1];
    let mut line = b"reply".to_vec();
    spelling::word(message, &mut line);
    line.extend_from_slice(b" =20240305101501 =K1 =.*199;");
    let reply = "MSH|^~\\&|DEPOT|D1|LABSYS|LAB1|20240305101501||ACK^R01^ACK|K1|P|2.5.1\r\
                 MSA|AE|C7\rERR||OBX^1^5^1^1^1|102^Data type error^HL70357|E\r";
    let mut written = format!("written {}", reply.len()).into_bytes();
    let buffer = [reply.as_bytes(), &b".".repeat(200 - reply.len())].concat();
    spelling::word(&buffer, &mut written);
    assert_eq!(spelling::answer(&line), written);
    let slip = b"\x01\0\x02C7\x02\0\x03A55\x04\0\x02F9\x05\0\x0754089-8\x06\0\x02\0\x01".to_vec();
    let book = slips::filed(&worked::m().write(), 1, 0, &[b'#'; SLOT_BYTES]);
    assert_eq!(book, Some([slip, vec![0; 993]].concat()));
}

#[test]
fn good_messages_are_accepted() {
    let mut generator = Generator::new(3);
    let refused: Vec<Vec<u8>> =
        (0..2_000).map(|_| generator.good_message(0).write()).filter(|message| judged(message) != "accepted").collect();
    for message in refused.iter().take(3) {
        println!("{}\n{}", judged(message), String::from_utf8_lossy(message).replace('\r', "\n"));
    }
    assert!(refused.is_empty(), "{} of 2000", refused.len());
}

/// The days that stand in the fields of a draft that have a date.
fn dates_of(draft: &Draft) -> Vec<Date> {
    let mut found = Vec::new();
    for segment in &draft.segments {
        for (_, number) in DATED.iter().filter(|(name, _)| segment.name == name.as_bytes()) {
            let text = String::from_utf8(segment.text(*number)).unwrap_or_default();
            let part = |at: usize, end: usize| text.get(at..end).and_then(|digits| digits.parse().ok());
            if let (Some(year), Some(month), Some(day)) = (part(0, 4), part(4, 6), part(6, 8)) {
                found.push(Date::new(year, month, day));
            }
        }
    }
    found
}

#[test]
fn good_messages_often_have_the_last_day_of_a_month() {
    let mut generator = Generator::new(12);
    let dates: Vec<Date> = (0..1_000).flat_map(|_| dates_of(&generator.good_message(0))).collect();
    let last = dates.iter().filter(|date| date.day == dates::days(date.year, date.month)).count();
    let leap = dates.iter().filter(|date| (date.month, date.day) == (2, 29)).count();
    assert!(last > 500 && leap > 100, "{} and {} of {}", last, leap, dates.len());
}

#[test]
fn days_are_judged_by_the_calendar() {
    let leap_days = dates::YEARS.iter().map(|year| Date::new(*year, 2, 29));
    for date in days::about_month_ends().into_iter().chain(leap_days) {
        let formed = (1..=12).contains(&date.month) && (1..=31).contains(&date.day);
        for (name, number) in DATED {
            let expected = match (formed, date.is_lacking()) {
                (false, _) => format!("fault {} 1 {} 1 1 1 102 7", name, number),
                (true, true) => format!("fault {} 1 {} 1 1 1 102 13", name, number),
                (true, false) => "accepted".to_string(),
            };
            assert_eq!(judged(&days::with((name, *number), &date.text())), expected, "{}", date.text());
        }
    }
}

#[test]
fn where_no_date_stands_no_day_is_asked_for() {
    for field in days::ELSEWHERE {
        assert_eq!(judged(&days::with(*field, "20240230")), "accepted", "{}-{}", field.0, field.1);
    }
}

/// What judging answers to a leaf of escapes that is not too long.
fn answer_to_escapes(spot: &Spot) -> String {
    let (name, number, component) = (spot.field.name, spot.field.number, spot.leaf.component);
    let told = match (name, number, component) {
        _ if matches!(spot.leaf.simple, Simple::Si | Simple::Nm | Simple::Dtm | Simple::Tm) => "102 7",
        ("MSH", 9, 1) => "200 9",
        ("MSH", 9, 2) => "201 10",
        ("MSH", 11, 1) => "202 11",
        ("MSH", 12, 1) => "203 12",
        _ if !list(name, number, component).is_empty() => "103 8",
        _ => return "accepted".to_string(),
    };
    fault(spot, told)
}

fn fault(spot: &Spot, told: &str) -> String {
    let leaf = spot.leaf;
    format!("fault {} 1 {} 1 {} {} {}", spot.field.name, spot.field.number, leaf.component, leaf.subcomponent, told)
}

#[test]
fn leaves_are_judged_by_their_resolved_length() {
    let spots = lengths::spots();
    assert_eq!(spots.len(), 108);
    for (at, spot) in spots.iter().enumerate() {
        let good = answer_to_escapes(spot);
        let (long, bad) = (fault(spot, "102 5"), fault(spot, "102 6"));
        let expected = [&good, &long, &good, &long, &bad, &bad];
        for (text, answer) in lengths::about(at, spot.most()).iter().zip(expected) {
            assert_eq!(judged(&spot.with(text)), *answer, "{}", text);
        }
    }
}

#[test]
fn the_longest_reply_is_as_long_as_reckoned() {
    let mut draft = lengths::with_long_header("\\T\\");
    *draft.segments[0].field(11) = b"X".to_vec();
    // with a reply number of two bytes instead of twenty
    assert_eq!(lent::reply_length(&draft.write()), 3_074 - 18);
}

#[test]
fn additions_leave_most_messages_accepted() {
    let mut generator = Generator::new(4);
    let accepted = (0..2_000).filter(|_| judged(&generator.good_message(100).write()) == "accepted").count();
    assert!(accepted > 1_700, "{} of 2000", accepted);
}

#[test]
fn greatest_sizes_are_accepted_or_not_as_told() {
    for (name, line, accepted) in large::MANY {
        assert_eq!(judged(&large::many(line, MOST_SEGMENTS)) == "accepted", *accepted, "{}", name);
        assert_eq!(judged(&large::many(line, MOST_SEGMENTS + 1)), "refused 8", "{}", name);
    }
    for (row, shape) in large::LONG.iter().enumerate() {
        assert_eq!(judged(&large::long(row, MOST_BYTES)) == "accepted", shape.4, "{}", shape.0);
        assert_eq!(judged(&large::long(row, MOST_BYTES + 1)), "refused 2", "{}", shape.0);
    }
    assert_eq!(judged(&large::notes(MOST_BYTES)), "accepted");
}

#[test]
fn the_tour_starts_from_accepted_messages() {
    for kind in TYPES {
        assert_eq!(judged(&tour::full(kind).write()), "accepted", "{}", kind);
    }
}

#[test]
fn every_kind_of_damage_is_reached() {
    let mut generator = Generator::new(5);
    for _ in 0..6_000 {
        generator.message();
    }
    let names = leaves::DAMAGES.iter().chain(order::DAMAGES).map(|row| row.0);
    let names = names.chain(frame::EDITS.iter().chain(frame::DAMAGES).map(|row| row.0));
    for name in
        names.chain(["large", "none", "tiny", "noise", "bad frame", "edited", "good", "damaged", "newer sender"])
    {
        assert!(generator.made.get(name).copied().unwrap_or(0) >= 10, "{}", name);
    }
}

#[test]
fn every_refusal_and_reason_is_met_often() {
    let mut generator = Generator::new(6);
    let mut table = Table::default();
    while table.calls < 60_000 {
        for line in generator.bundle().lines() {
            assert!(table.add(&line, &spelling::answer(&line)), "{}", String::from_utf8_lossy(&line));
        }
    }
    assert!(table.lacking().is_empty(), "{:?}\n{}", table.lacking(), table);
}

#[test]
fn a_seed_gives_the_same_calls() {
    let mut one = Generator::new(9);
    let mut other = Generator::new(9);
    for _ in 0..200 {
        assert_eq!(one.bundle().lines(), other.bundle().lines());
    }
}

#[test]
fn strings_come_back_from_their_spelling() {
    let mut generator = Generator::new(10);
    for _ in 0..500 {
        let message = generator.message();
        let mut spelled = Vec::new();
        spelling::string(&message, &mut spelled);
        assert_eq!(second::calls::unspell(&spelled), Some(message));
    }
}

#[test]
fn rounds_have_pairs_that_striking_altered() {
    let round = Round::make(&mut Generator::new(11), 2_000);
    assert!(round.pairs.len() > 300);
    assert!(round.pairs.iter().filter(|pair| pair.struck).count() > 100);
}

//! The judge against a plain one that splits again for every leaf, on many
//! changed messages; and what striking must not change.

mod common;
use common::*;
use second::profile::{value_leaves, Field, LeafRule, Listed, Usage};
use second::types::Simple;
use second::{look_up, strike, Asked, Found, Reason, Verdict};

fn parts(text: &str, separator: char) -> Vec<&str> {
    match text {
        "" => Vec::new(),
        _ => text.split(separator).collect(),
    }
}

fn nth(text: &str, separator: char, number: u32) -> &str {
    text.split(separator).nth(number as usize - 1).unwrap_or("")
}

fn leaf<'t>(repetition: &'t str, rule: &LeafRule) -> &'t str {
    nth(nth(repetition, '^', rule.place.0), '&', rule.place.1)
}

fn field_text(segment: &str, number: u32) -> &str {
    let number = match segment.starts_with("MSH") {
        true => number,
        false => number + 1,
    };
    nth(segment, '|', number)
}

fn leaves_of(segment: &str, field: &Field) -> &'static [LeafRule] {
    let named = nth(field_text(segment, 2), '~', 1);
    let named = nth(nth(named, '^', 1), '&', 1);
    field
        .leaves
        .unwrap_or_else(|| value_leaves(named.as_bytes()))
}

fn is_filled(repetition: &str, leaves: &[LeafRule]) -> bool {
    leaves.iter().any(|rule| !leaf(repetition, rule).is_empty())
}

fn is_filled_first(segment: &str, field: &Field) -> bool {
    let repetitions = parts(field_text(segment, field.number), '~');
    repetitions
        .first()
        .map_or(false, |first| is_filled(first, leaves_of(segment, field)))
}

/// The length of a text without a bad escape, once it is resolved: each
/// escape has two marks that nobody reads.
fn read_length(text: &str) -> usize {
    text.chars().filter(|&character| character != '\\').count()
}

/// A year is a leap year if it can be divided by one of these or by all, not
/// if by two.
fn is_leap(year: &str) -> bool {
    let year: u32 = year.parse().unwrap();
    let divisors = [4, 100, 400];
    divisors.iter().filter(|&&by| year % by == 0).count() % 2 == 1
}

fn no_such_day(text: &str) -> bool {
    match text.get(..8) {
        Some(date) if date.bytes().all(|byte| byte.is_ascii_digit()) => {
            let last = match &date[4..6] {
                "02" if is_leap(&date[..4]) => "29",
                "02" => "28",
                "04" | "06" | "09" | "11" => "30",
                _ => "31",
            };
            &date[6..] > last
        }
        _ => false,
    }
}

fn leaf_reason(text: &str, rule: &LeafRule) -> Option<Reason> {
    match rule.list {
        _ if text.is_empty() && rule.starred => Some(Reason::Missing),
        _ if text.is_empty() => None,
        _ if has_bad_escape(text) => Some(Reason::BadEscape),
        _ if read_length(text) > rule.limit => Some(Reason::TooLong),
        _ if !rule.simple.admits(text.as_bytes()) => Some(Reason::NotOfType),
        _ if rule.simple == Simple::Dtm && no_such_day(text) => Some(Reason::NoSuchDay),
        Some(list) if !list.holds(text.as_bytes()) => Some(list.reason()),
        _ => None,
    }
}

type Plain = Option<(u32, u32, u32, u32, Reason)>;

fn field_fault(segment: &str, listed: Listed, field: &Field) -> Plain {
    let repetitions = parts(field_text(segment, field.number), '~');
    if repetitions.len() > field.most as usize {
        return Some((
            field.number,
            field.most + 1,
            0,
            0,
            Reason::TooManyRepetitions,
        ));
    }
    let owed = match field.usage {
        Usage::Required => true,
        Usage::Optional => false,
        Usage::Conditional => is_filled_first(segment, &listed.fields()[4]),
    };
    if owed && !is_filled_first(segment, field) {
        return Some((field.number, 1, 0, 0, Reason::Missing));
    }
    let leaves = leaves_of(segment, field);
    for (repetition, number) in repetitions.iter().zip(1..) {
        for rule in leaves.iter().filter(|_| is_filled(repetition, leaves)) {
            if let Some(reason) = leaf_reason(leaf(repetition, rule), rule) {
                return Some((field.number, number, rule.place.0, rule.place.1, reason));
            }
        }
    }
    None
}

fn plain_line(message: &[u8]) -> String {
    if let Err(refusal) = second::check(message) {
        return format!("refused {}", refusal.number());
    }
    let text = std::str::from_utf8(message).unwrap();
    let mut before: Vec<(&str, Listed)> = Vec::new();
    for segment in text.split_terminator('\r') {
        let name = &segment[..3];
        let listed =
            match Listed::named([name.as_bytes()[0], name.as_bytes()[1], name.as_bytes()[2]]) {
                Some(listed) => listed,
                None => continue,
            };
        let occurrence = 1 + before.iter().filter(|(other, _)| *other == name).count();
        if !listed.may_follow(before.last().map(|last| last.1)) {
            return format!("fault {} {} 0 0 0 0 100 1", name, occurrence);
        }
        let mut faults = listed
            .fields()
            .iter()
            .map(|field| field_fault(segment, listed, field));
        if let Some((f, r, c, s, reason)) = faults.find_map(|fault| fault) {
            let (condition, reason) = (reason.condition(), reason.number());
            return format!(
                "fault {} {} {} {} {} {} {} {}",
                name, occurrence, f, r, c, s, condition, reason
            );
        }
        before.push((name, listed));
    }
    let (name, last) = before[before.len() - 1];
    match last.may_end() {
        true => "accepted".to_string(),
        false => {
            let occurrence = before.iter().filter(|(other, _)| *other == name).count();
            format!("fault {} {} 0 0 0 0 100 2", name, occurrence)
        }
    }
}

/// A plain generator of numbers, enough to change messages by.
struct Numbers(u64);

impl Numbers {
    fn below(&mut self, bound: usize) -> usize {
        self.0 = self
            .0
            .wrapping_mul(6_364_136_223_846_793_005)
            .wrapping_add(1_442_695_040_888_963_407);
        (self.0 >> 33) as usize % bound
    }
}

/// A message with a few parts put in, taken out or doubled.
fn changed(numbers: &mut Numbers, whole: &[u8]) -> Vec<u8> {
    let pieces: [&[u8]; 24] = [
        b"|",
        b"^",
        b"~",
        b"&",
        b"\\",
        b"\r",
        b"\\F\\",
        b"\\X\\",
        b"1",
        b"NM",
        b"A",
        b"",
        b"+0100",
        b".5",
        b"||",
        b"~~",
        b"^^",
        b"&&",
        b"OBX|1|CE|A||B|||||F\r",
        b"NTE|1\r",
        b"ORC|RE\r",
        b"ZZZ|\\\r",
        b"xxxxxxxxxxxxxxxxxxxxxx",
        b"OBR|2|a|b|c|||2024\r",
    ];
    let mut message = whole.to_vec();
    for _ in 0..=numbers.below(3) {
        let start = 9 + numbers.below(message.len() - 9);
        let end = (start + numbers.below(4) * numbers.below(3)).min(message.len());
        let piece = pieces[numbers.below(pieces.len())].to_vec();
        message.splice(start..end, piece);
    }
    message
}

fn rich() -> Vec<u8> {
    message(&[
        MSH,
        "PID|1||A55^b^c^H&1.2&ISO^MR~B66||LANE^JANE~L^^^^^^D||20240301|F||||||||||||||||N|1",
        NK1,
        "ORC|RE|P1^H|F1",
        OBR,
        OBX,
        "OBX|2|SN|C^N^LN||<^10^-^20|u|<5|A~B|||F|||2024",
        "NTE|1|L|a~b\\F\\~c",
        "OBX|3||C",
        "OBX|4|CE|C|1|A^B^C^D^E^F|||||F",
        OBR,
    ])
}

#[test]
fn the_judge_agrees_with_a_plain_one() {
    let mut numbers = Numbers(7);
    let mut seen = std::collections::BTreeSet::new();
    let wholes = [m(), rich()];
    for round in 0..20_000 {
        let message = changed(&mut numbers, &wholes[round % 2]);
        let verdict = line(&message);
        assert_eq!(
            verdict,
            plain_line(&message),
            "{:?}",
            String::from_utf8_lossy(&message)
        );
        seen.insert(verdict);
    }
    assert!(seen.len() > 200, "{} kinds of answer", seen.len());
}

/// A date about the end of a month, and what may or may not follow a day.
fn near_date(numbers: &mut Numbers) -> String {
    let years = [0, 4, 100, 400, 1900, 2000, 2023, 2024, 2100, 2400, 9999];
    let months = [1, 2, 2, 2, 2, 2, 4, 6, 8, 9, 11, 12, 13];
    let tails = ["", "", "23", "235959.5", "+0100", "2359-0500", "24", "x"];
    format!(
        "{:04}{:02}{:02}{}",
        years[numbers.below(years.len())],
        months[numbers.below(months.len())],
        27 + numbers.below(6),
        tails[numbers.below(tails.len())]
    )
}

#[test]
fn the_judge_agrees_with_a_plain_one_about_days() {
    let mut numbers = Numbers(13);
    let mut seen = std::collections::BTreeMap::new();
    for _ in 0..20_000 {
        let (two, five) = [("ST", "2024"), ("DTM", "2024"), ("DTM", "")][numbers.below(3)];
        let mut segments = [MSH, PID, OBR, &set(&set(OBX, 2, two), 5, five)].map(String::from);
        for _ in 0..=numbers.below(2) {
            let (at, field) = [(0, 7), (1, 7), (2, 7), (3, 5), (3, 14)][numbers.below(5)];
            segments[at] = set(&segments[at], field, &near_date(&mut numbers));
        }
        let [msh, pid, obr, obx] = &segments;
        let message = message(&[msh, pid, obr, obx]);
        let verdict = line(&message);
        assert_eq!(verdict, plain_line(&message));
        *seen.entry(verdict).or_insert(0) += 1;
    }
    for place in ["MSH 1 7", "PID 1 7", "OBR 1 7", "OBX 1 5", "OBX 1 14"] {
        let verdict = format!("fault {} 1 1 1 102 13", place);
        assert!(seen.get(&verdict) > Some(&100), "{:?}", seen);
    }
    assert!(seen.get("accepted") > Some(&2_000), "{:?}", seen);
}

/// A text about a limit in one count of its bytes or another.
fn near_limit(numbers: &mut Numbers, limit: usize) -> String {
    let good = ["\\F\\", "\\S\\", "\\T\\", "\\R\\", "\\E\\"];
    let bad = ["\\", "\\X\\", "\\F", "\\\\", "\\F\\F\\"];
    let wanted = [limit / 3, limit - 1, limit, limit, limit + 1][numbers.below(5)];
    let share = [0, 1, 2, 10][numbers.below(4)];
    let mut pieces: Vec<&str> = Vec::new();
    for _ in 0..wanted {
        pieces.push(match numbers.below(10) < share {
            true => good[numbers.below(5)],
            false => "1",
        });
    }
    if numbers.below(4) == 0 {
        pieces.insert(numbers.below(wanted + 1), bad[numbers.below(bad.len())]);
    }
    pieces.concat()
}

/// Leaves to be made long: M's segment, counted from 0, the field, the text
/// before the leaf in the field, and the leaf's limit.
const LIMITED: [(usize, usize, &str, usize); 12] = [
    (0, 3, "A^", 199),
    (0, 6, "", 20),
    (0, 10, "", 20),
    (1, 1, "", 4),
    (1, 3, "A^^^&&", 20),
    (1, 8, "", 20),
    (1, 25, "", 16),
    (2, 4, "", 199),
    (3, 2, "", 3),
    (3, 4, "", 20),
    (3, 7, "", 60),
    (3, 14, "", 24),
];

#[test]
fn the_judge_agrees_with_a_plain_one_about_lengths() {
    let mut numbers = Numbers(17);
    let mut seen = std::collections::BTreeMap::new();
    for _ in 0..20_000 {
        let mut segments = [MSH, PID, OBR, OBX].map(String::from);
        for _ in 0..=numbers.below(2) {
            let (at, field, before, limit) = LIMITED[numbers.below(LIMITED.len())];
            let text = format!("{}{}", before, near_limit(&mut numbers, limit));
            segments[at] = set(&segments[at], field, &text);
        }
        let [msh, pid, obr, obx] = &segments;
        let message = message(&[msh, pid, obr, obx]);
        let verdict = line(&message);
        assert_eq!(verdict, plain_line(&message));
        *seen.entry(verdict).or_insert(0) += 1;
    }
    for reason in [5, 6] {
        for place in [
            "MSH 1 3 1 2 1",
            "MSH 1 10 1 1 1",
            "PID 1 1 1 1 1",
            "PID 1 3 1 4 3",
            "OBX 1 2 1 1 1",
            "OBX 1 7 1 1 1",
        ] {
            let verdict = format!("fault {} 102 {}", place, reason);
            assert!(seen.get(&verdict) > Some(&50), "{:?}", seen);
        }
    }
    assert!(seen.get("accepted") > Some(&2_000), "{:?}", seen);
}

#[test]
fn striking_changes_no_answer() {
    let mut numbers = Numbers(11);
    let wholes = [m(), rich()];
    let mut compared = 0;
    for round in 0..8_000 {
        let message = changed(&mut numbers, &wholes[round % 2]);
        let left = match strike(&message) {
            Some(left) => left,
            None => continue,
        };
        assert_eq!(strike(&left), Some(left.clone()));
        assert_eq!(second::judge(&left), second::judge(&message));
        assert_eq!(reply(&left), reply(&message));
        if second::judge(&message) == Ok(Verdict::Accepted) {
            let (mut book, mut other) = ([1; 1_024], [2; 1_024]);
            assert_eq!(
                second::file(&left, 1, 0, &mut book),
                second::file(&message, 1, 0, &mut other)
            );
            assert_eq!(book[..], other[..]);
        }
        compared += 1;
    }
    assert!(compared > 4_000, "{} compared", compared);
}

#[test]
fn look_up_finds_the_written_leaf() {
    let message = rich();
    let text = String::from_utf8(message.clone()).unwrap();
    let mut found = 0;
    for (name, occurrence) in [("PID", 1), ("OBX", 2), ("OBX", 4), ("NTE", 1)] {
        let mut segments = text.split('\r').filter(|segment| segment.starts_with(name));
        let segment = segments.nth(occurrence as usize - 1).unwrap();
        for index in 0..26 * 4 * 7 * 4 {
            let numbers = [
                index % 26 + 1,
                index / 26 % 4 + 1,
                index / 104 % 7 + 1,
                index / 728 + 1,
            ];
            let [field, repetition, component, subcomponent] = numbers;
            let expected = nth(field_text(segment, field), '~', repetition);
            let expected = nth(nth(expected, '^', component), '&', subcomponent);
            let [field, repetition, component, subcomponent] = numbers.map(u64::from);
            let asked = Asked {
                occurrence,
                field,
                repetition,
                component,
                subcomponent,
            };
            match look_up(&message, name.as_bytes(), &asked).unwrap() {
                Found::Empty => assert_eq!(expected, ""),
                Found::Text(part) => {
                    assert_eq!(&text[part], expected);
                    found += 1;
                }
            }
        }
    }
    assert!(found > 40);
}

#[test]
fn the_profile_rises() {
    for name in ["MSH", "PID", "NK1", "ORC", "OBR", "OBX", "NTE"] {
        let name = name.as_bytes();
        let fields = Listed::named([name[0], name[1], name[2]]).unwrap().fields();
        assert!(fields
            .windows(2)
            .all(|pair| pair[0].number < pair[1].number));
        for leaves in fields.iter().filter_map(|field| field.leaves) {
            assert!(leaves.windows(2).all(|pair| pair[0].place < pair[1].place));
        }
    }
}

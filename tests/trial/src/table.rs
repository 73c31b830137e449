//! The spread of answers: how many calls each entry got, and how many of each answer.

use std::collections::BTreeMap;
use std::fmt;

use crate::cases;
use crate::dates;
use crate::numbers::{BAD_STAMP, NO_SUCH_DAY, REASONS, REFUSALS};
use crate::profile::DATED;
use crate::spelling;

/// Each refusal and each reason must be met so often, and so must each of the cases that are counted apart.
pub const ENOUGH: usize = 20;

/// The entries, and last what is no call.
const ENTRIES: [&str; 7] = ["judge", "look", "resolve", "reply", "file", "read", "other"];
const OTHER: usize = ENTRIES.len() - 1;

#[derive(Default)]
pub struct Table {
    /// For the place of an entry: answers by sort and number.
    answers: [BTreeMap<(String, usize), usize>; ENTRIES.len()],
    /// By number; the place 0 is not used.
    pub refusals: [usize; REFUSALS + 1],
    pub reasons: [usize; REASONS + 1],
    /// Faults of a day that there is not, by the fields that have a date.
    pub days: BTreeMap<(String, usize), usize>,
    /// Stamps refused for their day alone.
    pub stamps: usize,
    /// Cases of the rule of lengths, by their titles.
    pub lengths: BTreeMap<&'static str, usize>,
    pub calls: usize,
}

fn number(word: Option<&[u8]>) -> usize {
    word.and_then(|word| std::str::from_utf8(word).ok()).and_then(|word| word.parse().ok()).unwrap_or(0)
}

/// The name and the field of a fault's place.
fn field_of(answer: &[u8]) -> (String, usize) {
    let words: Vec<&[u8]> = answer.split(|byte| *byte == b' ').collect();
    let name = words.get(1).map_or(String::new(), |name| String::from_utf8_lossy(name).into_owned());
    (name, number(words.get(3).copied()))
}

impl Table {
    /// Counts an answer in; false where it is none of the answers that a call can have.
    pub fn add(&mut self, call: &[u8], answer: &[u8]) -> bool {
        let first = call.split(|byte| *byte == b' ').next().unwrap_or(b"");
        let mut words = answer.split(|byte| *byte == b' ');
        let sort = String::from_utf8_lossy(words.next().unwrap_or(b"")).into_owned();
        // a line that only begins like a call is told by its answer
        let named = if sort == "no" { None } else { ENTRIES.iter().position(|entry| entry.as_bytes() == first) };
        let (detail, good) = match &sort[..] {
            "refused" => {
                let detail = number(words.next());
                (detail, (1..=REFUSALS).contains(&detail))
            }
            "fault" => {
                let detail = number(words.next_back());
                (detail, (1..=REASONS).contains(&detail))
            }
            "accepted" | "empty" | "text" | "written" | "filed" | "value" | "no" => (0, true),
            _ => (0, false),
        };
        if !good {
            return false;
        }
        match &sort[..] {
            "refused" => self.refuse(call, detail),
            "fault" => self.find(answer, detail),
            _ => (),
        }
        for title in cases::met(call, answer) {
            *self.lengths.entry(title).or_insert(0) += 1;
        }
        self.calls += 1;
        *self.answers[named.unwrap_or(OTHER)].entry((sort, detail)).or_insert(0) += 1;
        true
    }

    fn refuse(&mut self, call: &[u8], refusal: usize) {
        self.refusals[refusal] += 1;
        if refusal == BAD_STAMP {
            let stamp = spelling::string_at(call, 2).unwrap_or_default();
            self.stamps += usize::from(dates::is_wrong_by_day_alone(&stamp));
        }
    }

    fn find(&mut self, answer: &[u8], reason: usize) {
        self.reasons[reason] += 1;
        if reason == NO_SUCH_DAY {
            *self.days.entry(field_of(answer)).or_insert(0) += 1;
        }
    }

    /// The cases counted apart: a title, and how often each is met.
    fn cases(&self) -> Vec<(String, usize)> {
        let met = |name: &str, field: usize| self.days.get(&(name.to_string(), field)).copied().unwrap_or(0);
        let days = DATED
            .iter()
            .map(|(name, field)| (format!("reason {} in {}-{}", NO_SUCH_DAY, name, field), met(name, *field)));
        let stamps = [(format!("refusal {} for the day alone", BAD_STAMP), self.stamps)];
        let lengths =
            cases::TITLES.iter().map(|title| (title.to_string(), self.lengths.get(title).copied().unwrap_or(0)));
        days.chain(stamps).chain(lengths).collect()
    }

    /// What is met too seldom.
    pub fn lacking(&self) -> Vec<String> {
        let refusals = (1..=REFUSALS).map(|number| (format!("refusal {}", number), self.refusals[number]));
        let reasons = (1..=REASONS).map(|number| (format!("reason {}", number), self.reasons[number]));
        let all = refusals.chain(reasons).chain(self.cases());
        all.filter(|(_, count)| *count < ENOUGH).map(|(title, _)| title).collect()
    }
}

fn title(sort: &str, detail: usize) -> String {
    match (sort, detail) {
        ("no", _) => "no call".to_string(),
        ("fault", _) => format!("fault, reason {}", detail),
        (_, 0) => sort.to_string(),
        _ => format!("{} {}", sort, detail),
    }
}

impl fmt::Display for Table {
    fn fmt(&self, out: &mut fmt::Formatter<'_>) -> fmt::Result {
        for (entry, answers) in ENTRIES.iter().zip(&self.answers) {
            writeln!(out, "{} {}", entry, answers.values().sum::<usize>())?;
            for ((sort, detail), count) in answers {
                writeln!(out, "  {:<18} {:>9}", title(sort, *detail), count)?;
            }
        }
        for number in 1..=REFUSALS {
            writeln!(out, "refusal {:>2} {:>9}", number, self.refusals[number])?;
        }
        for number in 1..=REASONS {
            writeln!(out, "reason  {:>2} {:>9}", number, self.reasons[number])?;
        }
        for (title, count) in self.cases() {
            writeln!(out, "{:<37} {:>9}", title, count)?;
        }
        writeln!(out, "calls      {:>9}", self.calls)
    }
}

#[cfg(test)]
mod tests {
    use super::*;

    #[test]
    fn answers_are_counted_by_entry_and_number() {
        let mut table = Table::default();
        assert!(table.add(b"judge =x", b"refused 4"));
        assert!(table.add(b"judge =x", b"fault OBX 1 5 1 1 1 102 7"));
        assert!(table.add(b"reply =x = = =aa", b"refused 4 =aa"));
        assert!(table.add(b"judge", b"no call"));
        assert!(!table.add(b"judge =x", b"refused 21"));
        assert!(!table.add(b"judge =x", b"fault OBX 1 5 1 1 1 102 14"));
        assert!(!table.add(b"judge =x", b"perhaps"));
        assert_eq!((table.refusals[4], table.reasons[7], table.calls), (2, 1, 4));
        assert_eq!(table.lacking().len(), REFUSALS + REASONS + table.cases().len());
        assert!(table.to_string().contains("no call"));
    }

    #[test]
    fn days_that_there_are_not_are_counted_apart() {
        let mut table = Table::default();
        assert!(table.add(b"judge =x", b"fault OBX 12 14 1 1 1 102 13"));
        assert!(table.add(b"judge =x", b"fault OBX 12 14 1 1 1 102 7"));
        assert!(table.add(b"reply =x =20240230101501 =K1 =aa", b"refused 11 =aa"));
        assert!(table.add(b"reply =x =20240230101561 =K1 =aa", b"refused 11 =aa"));
        assert!(table.add(b"reply =x =20240230101501 =K1 =aa", b"refused 4 =aa"));
        assert_eq!(table.days.get(&("OBX".to_string(), 14)), Some(&1));
        assert_eq!((table.reasons[13], table.refusals[11], table.stamps), (1, 2, 1));
    }
}

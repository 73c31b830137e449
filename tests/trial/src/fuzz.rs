//! The two programs on the same random calls, until a difference or the end of the time.

use std::fs;
use std::io::{self, Write};
use std::sync::mpsc;
use std::thread;
use std::time::{Duration, Instant};

use crate::child;
use crate::generator::Generator;
use crate::lines::Lines;
use crate::round::{agree, Round};
use crate::spelling;
use crate::table::Table;

const CALLS_A_ROUND: usize = 6_000;

pub struct Plan {
    pub seconds: u64,
    pub seed: u64,
    pub folder: String,
    pub command: Vec<String>,
}

#[derive(Default)]
struct Counts {
    table: Table,
    pairs: usize,
    struck: usize,
}

/// What differs: calls with their answers and who gave them.
struct Difference {
    title: String,
    parts: Vec<(&'static str, Vec<u8>)>,
}

impl Difference {
    fn of_answer(call: &[u8], expected: &[u8], answer: Option<&[u8]>, trouble: &str) -> Difference {
        let title = match answer {
            Some(_) => "the answers differ".to_string(),
            None => format!("the child gave no answer; {}", trouble),
        };
        let parts = vec![
            ("call", call.to_vec()),
            ("child", answer.unwrap_or(b"").to_vec()),
            ("second", expected.to_vec()),
            ("message", spelling::first_string(call).unwrap_or_default()),
        ];
        Difference { title, parts }
    }

    fn of_pair(calls: [&[u8]; 2], answers: [&[u8]; 2]) -> Difference {
        let parts = vec![
            ("call", calls[0].to_vec()),
            ("child", answers[0].to_vec()),
            ("struck-call", calls[1].to_vec()),
            ("struck-child", answers[1].to_vec()),
            ("message", spelling::first_string(calls[0]).unwrap_or_default()),
            ("struck-message", spelling::first_string(calls[1]).unwrap_or_default()),
        ];
        Difference { title: "demand 3: striking altered the answer".to_string(), parts }
    }

    /// Each part is a file; the messages as they are, the rest as lines.
    fn save(&self, folder: &str, seed: u64) -> io::Result<()> {
        fs::create_dir_all(folder)?;
        println!("{}", self.title);
        for (name, bytes) in &self.parts {
            let path = format!("{}/{}-{}", folder, seed, name);
            let raw = name.ends_with("message");
            fs::write(&path, if raw { bytes.clone() } else { [&bytes[..], b"\n"].concat() })?;
            println!("{}:", path);
            if !raw {
                println!("{}", String::from_utf8_lossy(bytes));
            }
        }
        Ok(())
    }
}

/// The first difference of a round; what agrees is counted.
fn compare(round: &Round, answers: &Lines, trouble: &Option<String>, counts: &mut Counts) -> Option<Difference> {
    let why = trouble.as_deref().unwrap_or("it printed too few lines");
    for at in 0..round.calls.len() {
        let (call, expected) = (round.calls.line(at), round.expected.line(at));
        let answer = if at < answers.len() { Some(answers.line(at)) } else { None };
        if answer != Some(expected) || !counts.table.add(call, expected) {
            return Some(Difference::of_answer(call, expected, answer, why));
        }
    }
    for pair in &round.pairs {
        let (one, other) = (answers.line(pair.one), answers.line(pair.other));
        if !agree(pair, one, other) {
            return Some(Difference::of_pair([round.calls.line(pair.one), round.calls.line(pair.other)], [one, other]));
        }
        counts.pairs += 1;
        counts.struck += usize::from(pair.struck);
    }
    None
}

/// One round through the child; what is wrong with it, if anything.
fn try_round(plan: &Plan, mut round: Round, counts: &mut Counts) -> Result<Option<Difference>, String> {
    let calls = std::mem::take(&mut round.calls.bytes);
    let printed = child::run(&plan.command, calls.clone())?;
    round.calls.bytes = calls;
    let answers = Lines::of(printed.bytes);
    let found = compare(&round, &answers, &printed.trouble, counts);
    if found.is_none() {
        if let Some(trouble) = printed.trouble {
            return Err(format!("all answers agree, but {}", trouble));
        }
        if answers.bytes.len() != round.expected.bytes.len() {
            return Err("the child printed more than its answers".to_string());
        }
    }
    Ok(found)
}

fn rate(counts: &Counts, start: Instant) -> f64 {
    counts.table.calls as f64 / start.elapsed().as_secs_f64().max(0.001)
}

fn report(counts: &Counts, start: Instant) {
    println!("calls {}, {:.0} a second", counts.table.calls, rate(counts, start));
    println!("pairs for demand 3: {}, in {} of them striking altered the message", counts.pairs, counts.struck);
    print!("{}", counts.table);
}

/// True if no difference was found.
pub fn fuzz(plan: &Plan) -> Result<bool, String> {
    let (sender, receiver) = mpsc::sync_channel(1);
    let seed = plan.seed;
    // rounds are made while the child works on another
    thread::spawn(move || {
        let mut generator = Generator::new(seed);
        while sender.send(Round::make(&mut generator, CALLS_A_ROUND)).is_ok() {}
    });
    let start = Instant::now();
    let mut told = start;
    let mut counts = Counts::default();
    while start.elapsed() < Duration::from_secs(plan.seconds) {
        let round = receiver.recv().map_err(|_| "the generator stopped".to_string())?;
        if let Some(difference) = try_round(plan, round, &mut counts)? {
            println!("after {} calls that agree:", counts.table.calls);
            difference.save(&plan.folder, seed).map_err(|error| error.to_string())?;
            return Ok(false);
        }
        if told.elapsed() >= Duration::from_secs(10) {
            told = Instant::now();
            eprintln!(
                "{:.0} s, {} calls, {:.0} a second",
                start.elapsed().as_secs_f64(),
                counts.table.calls,
                rate(&counts, start)
            );
        }
    }
    report(&counts, start);
    println!("no difference");
    io::stdout().flush().map_err(|error| error.to_string())?;
    Ok(true)
}

#[cfg(test)]
mod tests {
    use super::*;
    use crate::round::Pair;

    fn lines(texts: &[&str]) -> Lines {
        let mut lines = Lines::default();
        texts.iter().for_each(|text| lines.push(text.as_bytes()));
        lines
    }

    /// A round of two calls that are a pair.
    fn round(by_bytes: bool, expected: &[&str]) -> Round {
        let calls = lines(&["look =a =MSH 1 3 1 1 1", "look =b =MSH 1 3 1 1 1"]);
        Round { calls, expected: lines(expected), pairs: vec![Pair { one: 0, other: 1, by_bytes, struck: true }] }
    }

    fn found(round: &Round, answers: &[&str]) -> Option<String> {
        compare(round, &lines(answers), &None, &mut Counts::default()).map(|difference| difference.title)
    }

    #[test]
    fn differences_are_found() {
        let texts = ["text 9 11 =ab", "text 5 7 =ab"];
        assert_eq!(found(&round(true, &texts), &texts), None);
        assert!(found(&round(true, &texts), &["text 9 11 =ab", "text 5 7 =ac"]).is_some());
        assert!(found(&round(true, &texts), &texts[..1]).is_some());
    }

    #[test]
    fn demand_3_is_tried_on_what_both_programs_say() {
        let apart = ["text 9 11 =ab", "empty"];
        assert!(found(&round(true, &apart), &apart).map_or(false, |title| title.starts_with("demand 3")));
        let moved = ["text 9 11 =ab", "text 5 7 =ab"];
        assert!(found(&round(false, &moved), &moved).map_or(false, |title| title.starts_with("demand 3")));
    }
}

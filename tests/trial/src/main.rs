//! The maker of the corpus of calls, and the driver that compares two programs on random ones.
//!
//! The commands:
//!
//! - `corpus` prints the calls that are stored beside those written by hand: some are about the sample messages of a
//!   folder, some are random.
//! - `table` counts the answers to stored calls. It ends with status 1 where a refusal or a reason is met too seldom, a
//!   day that there is not in one of the fields with a date or in a stamp, or a case of the rule of lengths.
//! - `calls` prints random calls.
//! - `fuzz` hands random calls to another program and compares its answers with the second program's. It ends when the
//!   time is over, or with status 1 at the first difference, which it saves in a folder.
//!
//! `tests/corpus` runs the first two, `tests/fuzz` the last.
//!
//! The modules, in the order in which to read them; each names only those before it.
//!
//! Ground:
//! - `numbers`: document 01's numbers outside the profile
//! - `profile`: its profile: listed fields and leaves with their types, limits and lists
//! - `random`: random numbers from a seed
//! - `dates`: dates about the ends of months and about leap years
//! - `resolved`: how long a text is once its escapes are resolved
//! - `spelling`: the words of calls and answers, and the second program's answer to a call
//!
//! Values and messages:
//! - `values`: values of leaves: good ones, ones at a limit, and ones that are nearly good
//! - `draft`: a message in parts that can be altered before it is written out
//! - `short`: segments with what is required and no more
//! - `worked`: the worked messages of document 01
//! - `valid`: random messages that keep every rule
//! - `newer`: what a newer sender adds to a message
//! - `tour`: messages with every listed field, altered at one place at a time
//! - `large`: messages about the greatest length and the greatest number of segments
//!
//! Damage:
//! - `damage`: what a kind of damage is, and how one is chosen
//! - `leaves`: damage to the leaves and fields of a draft
//! - `order`: damage to the succession of its segments
//! - `frame`: damage to the bytes of a written message
//! - `slips`: damage to the slips of a book; good ones are filed by the second program
//!
//! Calls:
//! - `places`: places to be looked up
//! - `lent`: what else a call has: stamps, reply numbers, buffers, books, groups and slots
//! - `generator`: random messages of every sort, and bundles of calls about them
//!
//! The stored calls:
//! - `corpus`: calls gathered line by line
//! - `edges`: every edge once, on short messages
//! - `days`: the same of the rule that a month must have its day
//! - `lengths`: the same of the rule that lengths are counted after resolving
//! - `stored`: all that are stored
//!
//! Answers compared and counted:
//! - `lines`: lines as programs read and print them
//! - `cases`: which cases of the rule of lengths a call meets
//! - `table`: how often each entry gave each answer
//! - `round`: calls for the other program, the answers it must give, and the pairs that must agree
//! - `child`: the other program, run on a round
//! - `fuzz`: round after round, until a difference or the end of the time
//!
//! `tests` holds the generator as a whole against the second program.

#![forbid(unsafe_code)]

mod cases;
mod child;
mod corpus;
mod damage;
mod dates;
mod days;
mod draft;
mod edges;
mod frame;
mod fuzz;
mod generator;
mod large;
mod leaves;
mod lengths;
mod lent;
mod lines;
mod newer;
mod numbers;
mod order;
mod places;
mod profile;
mod random;
mod resolved;
mod round;
mod short;
mod slips;
mod spelling;
mod stored;
mod table;
#[cfg(test)]
mod tests;
mod tour;
mod valid;
mod values;
mod worked;

use std::env;
use std::fs;
use std::io::{self, BufWriter, Write};
use std::process::ExitCode;

use lines::Lines;

const USAGE: &str = "usage: trial corpus SAMPLES SEED
       trial table CALLS ANSWERS
       trial calls NUMBER SEED
       trial fuzz SECONDS SEED FOLDER -- COMMAND ARGUMENT..";

fn print_lines(lines: &[Vec<u8>]) -> io::Result<()> {
    let mut out = BufWriter::new(io::stdout());
    for line in lines {
        out.write_all(line)?;
        out.write_all(b"\n")?;
    }
    out.flush()
}

fn number(word: &str) -> Result<u64, String> {
    word.parse().map_err(|_| format!("{} is no number", word))
}

/// True if every refusal, every reason and every case counted apart is met often enough.
fn table(calls: &str, answers: &str) -> Result<bool, String> {
    let read = |path: &str| fs::read(path).map(Lines::of).map_err(|error| format!("{}: {}", path, error));
    let (calls, answers) = (read(calls)?, read(answers)?);
    if calls.len() != answers.len() {
        return Err(format!("{} calls, but {} answers", calls.len(), answers.len()));
    }
    let mut table = table::Table::default();
    for at in 0..calls.len() {
        if !table.add(calls.line(at), answers.line(at)) {
            return Err(format!("line {} is no answer", at + 1));
        }
    }
    print!("{}", table);
    let lacking = table.lacking();
    for name in &lacking {
        println!("{} is met fewer than {} times", name, table::ENOUGH);
    }
    Ok(lacking.is_empty())
}

fn calls(count: u64, seed: u64) -> Vec<Vec<u8>> {
    let mut generator = generator::Generator::new(seed);
    let mut lines = Vec::new();
    while (lines.len() as u64) < count {
        lines.extend(generator.bundle().lines());
    }
    lines.truncate(count as usize);
    lines
}

fn run(words: &[&str]) -> Result<bool, String> {
    let told = |error: io::Error| error.to_string();
    match words {
        ["corpus", samples, seed] => {
            print_lines(&stored::make(samples, number(seed)?)?.lines).map_err(told)?;
            Ok(true)
        }
        ["table", calls, answers] => table(calls, answers),
        ["calls", count, seed] => {
            print_lines(&calls(number(count)?, number(seed)?)).map_err(told)?;
            Ok(true)
        }
        ["fuzz", seconds, seed, folder, "--", command @ ..] if !command.is_empty() => fuzz::fuzz(&fuzz::Plan {
            seconds: number(seconds)?,
            seed: number(seed)?,
            folder: folder.to_string(),
            command: command.iter().map(|word| word.to_string()).collect(),
        }),
        _ => Err(USAGE.to_string()),
    }
}

fn main() -> ExitCode {
    let words: Vec<String> = env::args().skip(1).collect();
    let words: Vec<&str> = words.iter().map(|word| &word[..]).collect();
    match run(&words) {
        Ok(true) => ExitCode::SUCCESS,
        Ok(false) => ExitCode::from(1),
        Err(message) => {
            eprintln!("{}", message);
            ExitCode::from(2)
        }
    }
}

//! Calls an entry so many times on a message from standard input, and prints what came of a call and, where it is asked, how long all took.
//!
//! Nothing but the calls depends on the number of times, so what three calls take more than two is what a call takes. Digits depend on what they tell:
//! so the answer printed is one call's, and a time is printed only where it is asked for.

#![forbid(unsafe_code)]

use std::env;
use std::io::{self, Read};
use std::num::NonZeroU64;
use std::process::ExitCode;
use std::sync::atomic::{AtomicUsize, Ordering};
use std::time::Instant;

mod ours;
mod theirs;

use ours::Ours;
use theirs::Theirs;

const USAGE: &str = "\
usage: bench ours|second frame|judge|look|reply|short|file TIMES [timed] < MESSAGE
       bench sum bytes TIMES [timed] < MESSAGE
";

pub const STAMP: &[u8] = b"20240305101501";
pub const NUMBER: &[u8] = b"K1";

/// A buffer that has room for most replies. The one lent otherwise has room for every one.
const SHORT_BUFFER: usize = 1200;

/// Where the message begins: 0, but loaded anew before each call, so that no two calls are known to be equal.
static START: AtomicUsize = AtomicUsize::new(0);

/// What the calls are made with.
pub struct Lent {
    /// The last OBX: its occurrence is what a look-up asks for.
    pub last: u64,
    /// The reply is written here.
    pub buffer: Vec<u8>,
    /// The slip is filed here.
    pub book: Vec<u8>,
}

/// An entry: its answer as a number.
type Entry = fn(&[u8], &mut Lent) -> u64;

/// The entries of one of the two programs; an answer is a number, as is a refusal.
pub trait Core {
    fn judge(message: &[u8]) -> u64;
    /// OBX-5 of an occurrence.
    fn look_up(message: &[u8], occurrence: u64) -> u64;
    fn reply(message: &[u8], buffer: &mut [u8]) -> u64;
    fn file(message: &[u8], book: &mut [u8]) -> u64;
}

/// The plain sum of the bytes.
#[inline(never)]
fn sum(message: &[u8], _: &mut Lent) -> u64 {
    message.iter().map(|&byte| u64::from(byte)).sum()
}

fn entry(who: &str, what: &str) -> Option<Entry> {
    match (who, what) {
        ("sum", "bytes") => Some(sum),
        ("ours", _) => entry_of::<Ours>(what),
        ("second", _) => entry_of::<Theirs>(what),
        _ => None,
    }
}

/// Occurrence 0 is a bad place, which is told when the frame is found good: so it takes the frame checks alone.
fn entry_of<C: Core>(what: &str) -> Option<Entry> {
    match what {
        "frame" => Some(|message, _| C::look_up(message, 0)),
        "judge" => Some(|message, _| C::judge(message)),
        "look" => Some(|message, lent| C::look_up(message, lent.last)),
        "reply" => Some(|message, lent| C::reply(message, &mut lent.buffer)),
        "short" => Some(|message, lent| C::reply(message, &mut lent.buffer[..SHORT_BUFFER])),
        "file" => Some(|message, lent| C::file(message, &mut lent.book)),
        _ => None,
    }
}

fn run(entry: Entry, times: NonZeroU64, is_timed: bool, message: &[u8]) {
    let observations = message.split(|&byte| byte == b'\r').filter(|segment| segment.starts_with(b"OBX"));
    let mut lent = Lent {
        last: observations.count() as u64,
        buffer: vec![0; ithwyral::LONGEST_REPLY],
        book: vec![0; 1024],
    };
    let mut answers: u64 = 0;
    let begin = Instant::now();
    for _ in 0..times.get() {
        answers = answers.wrapping_add(entry(&message[START.load(Ordering::Relaxed)..], &mut lent));
    }
    let taken = is_timed.then(|| begin.elapsed());
    println!("answer {}", answers / times);
    if let Some(taken) = taken {
        println!("nanoseconds {}", taken.as_nanos());
    }
}

fn main() -> ExitCode {
    let words: Vec<String> = env::args().skip(1).collect();
    let (words, is_timed) = match words.split_last() {
        Some((last, others)) if last == "timed" => (others, true),
        _ => (words.as_slice(), false),
    };
    let asked = match words {
        [who, what, times] => entry(who, what).zip(times.parse().ok()),
        _ => None,
    };
    match asked {
        Some((entry, times)) => {
            let mut message = Vec::new();
            if let Err(error) = io::stdin().lock().read_to_end(&mut message) {
                eprintln!("bench: {}", error);
                return ExitCode::FAILURE;
            }
            run(entry, times, is_timed, &message);
            ExitCode::SUCCESS
        }
        None => {
            eprint!("{}", USAGE);
            ExitCode::from(2)
        }
    }
}

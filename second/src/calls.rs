//! Calls and answers as lines of text.

use std::io::{self, Write};
use std::ops::Range;

use crate::escape::resolve;
use crate::judge::{judge, Verdict};
use crate::lookup::{look_up, Asked, Found};
use crate::refusal::Refusal;
use crate::reply::reply;
use crate::slip::{file, read_slip};

/// The longest string, in bytes.
pub const MOST_STRING_BYTES: usize = 131_072;
/// The longest line, in bytes, its line feed not counted.
pub const MOST_LINE_BYTES: usize = 1_048_576;
/// Runs of at least this many equal bytes are printed in the short form.
const LEAST_RUN: usize = 8;
/// The words of the longest call.
const MOST_WORDS: usize = 8;

/// A call with its arguments.
enum Call {
    Judge(Vec<u8>),
    Look(Vec<u8>, Vec<u8>, Asked),
    Resolve(Vec<u8>, Vec<u8>),
    Reply([Vec<u8>; 3], Vec<u8>),
    File(Vec<u8>, u64, u64, Vec<u8>),
    Read(Vec<u8>, u64, u64),
}

/// Appends the answer to a line; neither has its line feed.
pub fn answer(line: &[u8], out: &mut Vec<u8>) {
    match parse(line) {
        Some(call) => write_answer(call, out).expect("a Vec takes all that is written"),
        None => out.extend_from_slice(b"no call"),
    }
}

/// Reads a line; nothing if it is no call.
fn parse(line: &[u8]) -> Option<Call> {
    if line.len() > MOST_LINE_BYTES {
        return None;
    }
    // One word too many is enough to know that there are too many.
    let words = line.split(|&byte| byte == b' ').take(MOST_WORDS + 1);
    let words: Vec<&[u8]> = words.collect();
    Some(match *words.as_slice() {
        [b"judge", message] => Call::Judge(unspell(message)?),
        [b"look", message, name, ref numbers @ ..] => {
            Call::Look(unspell(message)?, unspell(name)?, asked(numbers)?)
        }
        [b"resolve", text, buffer] => Call::Resolve(unspell(text)?, unspell(buffer)?),
        [b"reply", message, stamp, reply_number, buffer] => Call::Reply(
            [unspell(message)?, unspell(stamp)?, unspell(reply_number)?],
            unspell(buffer)?,
        ),
        [b"file", message, group, slot, book] => Call::File(
            unspell(message)?,
            number(group)?,
            number(slot)?,
            unspell(book)?,
        ),
        [b"read", book, slot, tag] => Call::Read(unspell(book)?, number(slot)?, number(tag)?),
        _ => return None,
    })
}

fn asked(words: &[&[u8]]) -> Option<Asked> {
    match *words {
        [occurrence, field, repetition, component, subcomponent] => Some(Asked {
            occurrence: number(occurrence)?,
            field: number(field)?,
            repetition: number(repetition)?,
            component: number(component)?,
            subcomponent: number(subcomponent)?,
        }),
        _ => None,
    }
}

/// A number in decimal digits, any number of them; one that does not fit in 64 bits is asked as the largest.
fn number(word: &[u8]) -> Option<u64> {
    // `parse` would take a plus sign as well.
    if word.is_empty() || !word.iter().all(u8::is_ascii_digit) {
        return None;
    }
    Some(std::str::from_utf8(word).ok()?.parse().unwrap_or(u64::MAX))
}

fn write_answer(call: Call, out: &mut Vec<u8>) -> io::Result<()> {
    match call {
        Call::Judge(message) => write_verdict(judge(&message), out),
        Call::Look(message, name, asked) => match look_up(&message, &name, &asked) {
            Ok(Found::Empty) => write!(out, "empty"),
            Ok(Found::Text(part)) => write_part("text", part, &message, out),
            Err(refusal) => write_refusal(refusal, out),
        },
        Call::Resolve(text, mut buffer) => {
            let written = resolve(&text, &mut buffer);
            write_written(written, &buffer, out)
        }
        Call::Reply([message, stamp, number], mut buffer) => {
            let written = reply(&message, &stamp, &number, &mut buffer);
            write_written(written, &buffer, out)
        }
        Call::File(message, group, slot, mut book) => {
            match file(&message, group, slot, &mut book) {
                Ok(()) => write!(out, "filed")?,
                Err(refusal) => write_refusal(refusal, out)?,
            }
            write_string(&book, out)
        }
        Call::Read(book, slot, tag) => match read_slip(&book, slot, tag) {
            Ok(part) => write_part("value", part, &book, out),
            Err(refusal) => write_refusal(refusal, out),
        },
    }
}

/// Appends the line that says how a message was judged, without line feed.
pub fn write_verdict(verdict: Result<Verdict, Refusal>, out: &mut Vec<u8>) -> io::Result<()> {
    let fault = match verdict {
        Ok(Verdict::Accepted) => return write!(out, "accepted"),
        Ok(Verdict::Fault(fault)) => fault,
        Err(refusal) => return write_refusal(refusal, out),
    };
    out.extend_from_slice(b"fault ");
    out.extend_from_slice(&fault.place.name);
    for number in fault.place.numbers() {
        write!(out, " {}", number)?;
    }
    let reason = fault.reason;
    write!(out, " {} {}", reason.condition(), reason.number())
}

fn write_refusal(refusal: Refusal, out: &mut Vec<u8>) -> io::Result<()> {
    write!(out, "refused {}", refusal.number())
}

/// A part of lent bytes: its word, start, end and bytes.
fn write_part(word: &str, part: Range<usize>, lent: &[u8], out: &mut Vec<u8>) -> io::Result<()> {
    write!(out, "{} {} {}", word, part.start, part.end)?;
    write_string(&lent[part], out)
}

/// What became of a lent buffer.
fn write_written(
    written: Result<usize, Refusal>,
    buffer: &[u8],
    out: &mut Vec<u8>,
) -> io::Result<()> {
    match written {
        Ok(length) => write!(out, "written {}", length)?,
        Err(refusal) => write_refusal(refusal, out)?,
    }
    write_string(buffer, out)
}

fn write_string(bytes: &[u8], out: &mut Vec<u8>) -> io::Result<()> {
    out.push(b' ');
    spell(bytes, out);
    Ok(())
}

/// Appends a string in its printed form.
pub fn spell(bytes: &[u8], out: &mut Vec<u8>) {
    out.push(b'=');
    let mut rest = bytes;
    while let Some(&byte) = rest.first() {
        let run = rest.iter().take_while(|&&next| next == byte).count();
        spell_run(byte, run, out);
        rest = &rest[run..];
    }
}

fn spell_run(byte: u8, run: usize, out: &mut Vec<u8>) {
    if run < LEAST_RUN {
        (0..run).for_each(|_| spell_byte(byte, out));
    } else {
        spell_byte(byte, out);
        out.extend_from_slice(format!("*{};", run - 1).as_bytes());
    }
}

fn spell_byte(byte: u8, out: &mut Vec<u8>) {
    const DIGITS: &[u8; 16] = b"0123456789ABCDEF";
    if stands_for_itself(byte) {
        out.push(byte);
    } else {
        let high = DIGITS[usize::from(byte >> 4)];
        let low = DIGITS[usize::from(byte & 15)];
        out.extend_from_slice(&[b'%', high, low]);
    }
}

fn stands_for_itself(byte: u8) -> bool {
    matches!(byte, 0x21..=0x7E) && byte != b'%' && byte != b'*'
}

/// The string a word spells; nothing if it spells none, or one too long.
pub fn unspell(word: &[u8]) -> Option<Vec<u8>> {
    let (&equals, mut rest) = word.split_first()?;
    if equals != b'=' {
        return None;
    }
    let mut bytes = Vec::with_capacity(rest.len().min(MOST_STRING_BYTES));
    // A run follows a byte, and no other run.
    let mut at_run = false;
    while let Some((&first, after)) = rest.split_first() {
        let (byte, times, used) = match (first, after) {
            (b'%', &[high, low, ..]) => (hex(high)? << 4 | hex(low)?, 1, 2),
            (b'*', _) if at_run => return None,
            (b'*', _) => {
                let length = after.iter().position(|&byte| byte == b';')?;
                let times = usize::try_from(number(&after[..length])?).ok()?;
                (*bytes.last()?, times, length + 1)
            }
            _ if stands_for_itself(first) => (first, 1, 0),
            _ => return None,
        };
        if times > MOST_STRING_BYTES - bytes.len() {
            return None;
        }
        bytes.resize(bytes.len() + times, byte);
        rest = &after[used..];
        at_run = first == b'*';
    }
    Some(bytes)
}

/// The value of a hexadecimal digit, a capital if it is a letter.
fn hex(digit: u8) -> Option<u8> {
    match digit {
        b'0'..=b'9' => Some(digit - b'0'),
        b'A'..=b'F' => Some(digit - b'A' + 10),
        _ => None,
    }
}

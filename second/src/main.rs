//! The second program: answers calls, judges a message, strikes a message.

#![forbid(unsafe_code)]

use std::env;
use std::io::{self, BufRead, Read, Write};
use std::process::ExitCode;

use second::{calls, frame};

const USAGE: &str = "\
usage: second answers < CALLS      answer each line
       second judge < MESSAGE      print the verdict
       second strike < MESSAGE     print the message, the unlisted struck out
";

fn main() -> ExitCode {
    let arguments: Vec<_> = env::args_os().skip(1).collect();
    let done = match arguments.as_slice() {
        [word] if word == "answers" => answers(),
        [word] if word == "judge" => judge(),
        [word] if word == "strike" => strike(),
        _ => {
            eprint!("{}", USAGE);
            return ExitCode::from(2);
        }
    };
    done.unwrap_or_else(|error| {
        eprintln!("second: {}", error);
        ExitCode::FAILURE
    })
}

/// Answers each line of the input, keeping one at a time.
fn answers() -> io::Result<ExitCode> {
    let mut input = io::BufReader::new(io::stdin().lock());
    let mut output = io::BufWriter::new(io::stdout().lock());
    let mut line = Vec::new();
    let mut answer = Vec::new();
    while input.read_until(b'\n', &mut line)? > 0 {
        calls::answer(line.strip_suffix(b"\n").unwrap_or(&line), &mut answer);
        answer.push(b'\n');
        output.write_all(&answer)?;
        line.clear();
        answer.clear();
    }
    output.flush()?;
    Ok(ExitCode::SUCCESS)
}

fn judge() -> io::Result<ExitCode> {
    let message = read_message()?;
    let mut line = Vec::new();
    calls::write_verdict(second::judge(&message), &mut line)?;
    line.push(b'\n');
    io::stdout().write_all(&line)?;
    Ok(ExitCode::SUCCESS)
}

fn strike() -> io::Result<ExitCode> {
    let message = read_message()?;
    match frame::check(&message) {
        Ok(frame) => io::stdout().write_all(&second::strike::strike_frame(&frame))?,
        Err(refusal) => {
            eprintln!("refused {}", refusal.number());
            return Ok(ExitCode::FAILURE);
        }
    }
    Ok(ExitCode::SUCCESS)
}

/// Reads a message, or of one that is too long as much as shows it.
fn read_message() -> io::Result<Vec<u8>> {
    let mut message = Vec::new();
    let most = frame::MOST_BYTES as u64 + 1;
    io::stdin().lock().take(most).read_to_end(&mut message)?;
    Ok(message)
}

//! The other program: started for a round of calls, ended by the end of its input.

use std::io::{Read, Write};
use std::process::{Child, Command, Stdio};
use std::sync::mpsc;
use std::thread;
use std::time::Duration;

/// A round takes seconds; a program that needs so long hangs.
const PATIENCE: Duration = Duration::from_secs(900);

pub struct Printed {
    pub bytes: Vec<u8>,
    /// What is wrong with how it ended, if anything.
    pub trouble: Option<String>,
}

fn start(command: &[String]) -> Result<Child, String> {
    Command::new(&command[0])
        .args(&command[1..])
        .stdin(Stdio::piped())
        .stdout(Stdio::piped())
        .spawn()
        .map_err(|error| format!("{} can not be started: {}", command[0], error))
}

/// Hands over the calls and gives back all that is printed. One thread writes and another reads, so that neither pipe
/// can fill up while the other waits; how the child buffers does not matter, as its input ends.
pub fn run(command: &[String], calls: Vec<u8>) -> Result<Printed, String> {
    let mut child = start(command)?;
    let (mut input, mut output) = match (child.stdin.take(), child.stdout.take()) {
        (Some(input), Some(output)) => (input, output),
        _ => return Err("no pipes to the child".to_string()),
    };
    // a child that ends early breaks the pipe; its missing answers tell that
    let writer = thread::spawn(move || drop(input.write_all(&calls)));
    let (sender, receiver) = mpsc::channel();
    let reader = thread::spawn(move || {
        let mut bytes = Vec::new();
        let result = output.read_to_end(&mut bytes);
        drop(sender.send((bytes, result)));
    });
    let (bytes, result) = match receiver.recv_timeout(PATIENCE) {
        Ok(printed) => printed,
        Err(_) => {
            drop(child.kill());
            drop(child.wait());
            return Err(format!("{} does not end", command[0]));
        }
    };
    drop(writer.join());
    drop(reader.join());
    let status = child.wait().map_err(|error| error.to_string())?;
    let trouble = match result {
        Err(error) => Some(format!("its answers can not be read: {}", error)),
        Ok(_) if !status.success() => Some(format!("it ended with {}", status)),
        Ok(_) => None,
    };
    Ok(Printed { bytes, trouble })
}

#[cfg(test)]
mod tests {
    use super::run;

    fn words(command: &[&str]) -> Vec<String> {
        command.iter().map(|word| word.to_string()).collect()
    }

    #[test]
    fn much_goes_through_both_pipes() {
        let calls = b"judge =abc\n".repeat(400_000);
        let printed = run(&words(&["cat"]), calls.clone()).unwrap();
        assert!(printed.trouble.is_none());
        assert_eq!(printed.bytes, calls);
    }

    #[test]
    fn an_early_end_is_noticed() {
        let calls = b"judge =abc\n".repeat(400_000);
        let printed = run(&words(&["sh", "-c", "head -n 3; exit 7"]), calls).unwrap();
        assert!(printed.trouble.is_some());
        assert!(run(&words(&["/no/such/program"]), Vec::new()).is_err());
    }
}

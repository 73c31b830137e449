//! The program as it is run.

mod common;
use common::*;
use std::io::Write;
use std::process::{Command, Output, Stdio};

fn run(arguments: &[&str], input: &[u8]) -> Output {
    let mut child = Command::new(env!("CARGO_BIN_EXE_second"))
        .args(arguments)
        .stdin(Stdio::piped())
        .stdout(Stdio::piped())
        .stderr(Stdio::piped())
        .spawn()
        .unwrap();
    // The program need not read all of it.
    let _ = child.stdin.take().unwrap().write_all(input);
    child.wait_with_output().unwrap()
}

#[test]
fn judges() {
    assert_eq!(run(&["judge"], &m()).stdout, b"accepted\n");
    assert_eq!(run(&["judge"], b"").stdout, b"refused 1\n");
    assert_eq!(run(&["judge"], &[b'x'; 70_000]).stdout, b"refused 2\n");
    let bad = run(&["judge"], &m_with("OBX", 5, "3.1x"));
    assert_eq!(bad.stdout, b"fault OBX 1 5 1 1 1 102 7\n");
    assert_eq!(bad.status.code(), Some(0));
}

#[test]
fn strikes() {
    let struck = run(&["strike"], &message(&[MSH, PID, "ZZZ|1", OBR, OBX]));
    assert_eq!(struck.stdout, m());
    let refused = run(&["strike"], b"x");
    assert_eq!(refused.stdout, b"");
    assert_eq!(refused.stderr, b"refused 4\n");
    assert_eq!(refused.status.code(), Some(1));
}

#[test]
fn answers() {
    let input = b"judge =\n\nresolve =a\\F\\b =......\nread = 0 0";
    let output = run(&["answers"], input).stdout;
    assert_eq!(
        output,
        b"refused 1\nno call\nwritten 3 =a|b...\nrefused 17\n"
    );
    assert_eq!(run(&["answers"], b"").stdout, b"");
}

#[test]
fn usage() {
    for arguments in [&[][..], &["help"], &["judge", "x"]] {
        let output = run(arguments, b"");
        assert_eq!(output.status.code(), Some(2));
        assert!(output.stderr.starts_with(b"usage: second"));
        assert_eq!(output.stdout, b"");
    }
}

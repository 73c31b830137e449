//! Refusals 1 to 8, and their order.

mod common;
use common::*;
use second::check;

fn refused(message: &[u8]) -> Option<u8> {
    check(message).err().map(|refusal| refusal.number())
}

const HEADER: &str = r"MSH|^~\&|";

#[test]
fn empty() {
    assert_eq!(refused(b""), Some(1));
}

#[test]
fn length() {
    let fill = |total: usize| format!("{}{}\r", HEADER, "x".repeat(total - 10)).into_bytes();
    assert_eq!(fill(65_535).len(), 65_535);
    assert_eq!(refused(&fill(65_535)), None);
    assert_eq!(refused(&fill(65_536)), Some(2));
    // Before any byte is looked at.
    assert_eq!(refused(&vec![0; 65_536]), Some(2));
    assert_eq!(refused(&vec![0; 65_535]), Some(3));
}

#[test]
fn bytes() {
    for byte in 0..=255u8 {
        let mut message = m();
        let at = message.len() - 10;
        message[at] = byte;
        let allowed = (0x20..=0x7E).contains(&byte);
        if byte != b'\r' {
            assert_eq!(
                refused(&message),
                if allowed { None } else { Some(3) },
                "{}",
                byte
            );
        }
    }
    // Wherever the byte stands.
    let mut message = m();
    for at in 0..message.len() {
        let kept = std::mem::replace(&mut message[at], 0x7F);
        assert_eq!(refused(&message), Some(3));
        message[at] = kept;
    }
}

#[test]
fn header() {
    for bad in [
        "M",
        "MSH",
        r"MSH|^~\&",
        "MSH|^~\\&\r",
        "MSH|^~&\\|\r",
        "PID|^~\\&|\r",
        "msh|^~\\&|\r",
        "\r",
        " MSH|^~\\&|\r",
    ] {
        assert_eq!(refused(bad.as_bytes()), Some(4), "{:?}", bad);
    }
    assert_eq!(refused(b"MSH|^~\\&|\r"), None);
}

#[test]
fn end() {
    assert_eq!(refused(HEADER.as_bytes()), Some(5));
    assert_eq!(refused(b"MSH|^~\\&|\rbad"), Some(5));
    assert_eq!(refused(b"MSH|^~\\&|A\rPID|1"), Some(5));
}

#[test]
fn segments() {
    for good in ["PID", "PID|", "P12|x", "ZZZ|~^&\\", "A00"] {
        assert_eq!(refused(&message(&[HEADER, good])), None, "{:?}", good);
    }
    for bad in [
        "", "P", "PI", "1ID|", "pID|", "PId|", "PIDX", "PID^", "PI |", "PI|", "|", "PIDX|",
    ] {
        assert_eq!(refused(&message(&[HEADER, bad])), Some(6), "{:?}", bad);
        assert_eq!(
            refused(&message(&[HEADER, bad, "PID|1"])),
            Some(6),
            "{:?}",
            bad
        );
    }
}

#[test]
fn second_header() {
    assert_eq!(refused(&message(&[HEADER, HEADER])), Some(7));
    assert_eq!(refused(&message(&[HEADER, "PID", "MSH"])), Some(7));
    // A bad segment comes first, even after the second header.
    assert_eq!(refused(&message(&[HEADER, "MSH", "bad"])), Some(6));
    assert_eq!(refused(&message(&[HEADER, "MSHX"])), Some(6));
}

#[test]
fn count() {
    let many = |count: usize| {
        let mut segments = vec![HEADER];
        segments.resize(count, "NTE");
        message(&segments)
    };
    assert_eq!(refused(&many(512)), None);
    assert_eq!(refused(&many(513)), Some(8));
    // The second header comes before the count.
    let mut message = many(513);
    message.extend_from_slice(b"MSH\r");
    assert_eq!(refused(&message), Some(7));
    message.extend_from_slice(b"\r");
    assert_eq!(refused(&message), Some(6));
}

#[test]
fn m_at_512_segments() {
    let mut segments = vec![MSH, PID, OBR];
    segments.resize(512, OBX);
    assert_eq!(line(&message(&segments)), "accepted");
    segments.push(OBX);
    assert_eq!(line(&message(&segments)), "refused 8");
}

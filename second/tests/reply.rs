//! Replies.

mod common;
use common::*;
use second::profile::{value_leaves, Field, List, Listed};
use second::reply::MOST_BYTES;
use second::{Reason, Refusal};

const VALUE_TYPES: [&[u8]; 8] = [b"CE", b"DTM", b"FT", b"NM", b"SN", b"ST", b"TM", b"TX"];

fn replied(message: &[u8], stamp: &str, number: &str, room: usize) -> Result<usize, u8> {
    let mut buffer = vec![b'.'; room];
    let written = second::reply(message, stamp.as_bytes(), number.as_bytes(), &mut buffer);
    let kept = written.unwrap_or(0);
    assert!(buffer[kept..].iter().all(|&byte| byte == b'.'));
    written.map_err(Refusal::number)
}

const STAMP: &str = "20240305101501";

/// The line of a reply that begins so.
fn segment(message: &[u8], name: &str) -> Option<String> {
    let reply = reply(message).unwrap();
    let mut lines = reply.lines();
    lines.find(|line| line.starts_with(name)).map(String::from)
}

#[test]
fn accepted() {
    let expected = "MSH|^~\\&|DEPOT|D1|LABSYS|LAB1|20240305101501||ACK^R01^ACK|K1|P|2.5.1\n\
                    MSA|AA|C7\n";
    assert_eq!(reply(&m()), Ok(expected.to_string()));
}

#[test]
fn refusals_in_order() {
    let bad_control = m_with("MSH", 10, "");
    assert_eq!(replied(b"", "", "", 0), Err(1));
    assert_eq!(replied(&bad_control, "2024", "", 0), Err(11));
    for bad in [
        "",
        "20240305",
        "2024030510150",
        "202403051015011",
        "20240305101560",
        "20241305101500",
        "20240230101501",
        "20230229101501",
        "20240305101.15",
        "2024030510+0100",
        "2024030510150x",
    ] {
        assert_eq!(replied(&m(), bad, "K1", 999), Err(11), "{:?}", bad);
    }
    for bad in ["", "k1", "K-1", "K 1", "ABCDEFGHIJ12345678901"] {
        assert_eq!(replied(&bad_control, STAMP, bad, 0), Err(12), "{:?}", bad);
    }
    assert!(replied(&m(), STAMP, "ABCDEFGHIJ1234567890", 999).is_ok());
    for bad in ["", "^C7", "&C7", "~C7", "C\\7", "123456789012345678901"] {
        assert_eq!(
            replied(&m_with("MSH", 10, bad), STAMP, "K1", 0),
            Err(13),
            "{:?}",
            bad
        );
    }
    let length = replied(&m(), STAMP, "K1", 999).unwrap();
    assert_eq!(replied(&m(), STAMP, "K1", length), Ok(length));
    assert_eq!(replied(&m(), STAMP, "K1", length - 1), Err(14));
    assert_eq!(replied(&m(), STAMP, "K1", 0), Err(14));
}

#[test]
fn copied_values() {
    let copied = |three: &str| {
        let header = segment(&m_with("MSH", 3, three), "MSH").unwrap();
        header.split('|').nth(4).unwrap().to_string()
    };
    assert_eq!(copied("A^1.2^ISO"), "A^1.2^ISO");
    assert_eq!(copied("A^1.2^ISO^x"), "A^1.2^ISO");
    assert_eq!(copied("A&x^1.2&y"), "A^1.2");
    assert_eq!(copied("A^^"), "A");
    assert_eq!(copied("^^ISO~B"), "^^ISO");
    assert_eq!(copied(""), "");
    assert_eq!(copied("~B"), "");
    assert_eq!(copied(r"A\x^1.2^\F\"), r"^1.2^\F\");
    assert_eq!(copied(r"A^1.2^\"), "A^1.2");
    assert_eq!(copied(&format!("{}^B", "x".repeat(21))), "^B");
    assert_eq!(copied(&format!("A^{}", "x".repeat(200))), "A");
    assert_eq!(copied(&format!("A^{}", "x".repeat(199))).len(), 201);
}

#[test]
fn control_and_processing() {
    assert_eq!(
        segment(&m_with("MSH", 10, "C&x^y~z"), "MSA").unwrap(),
        "MSA|AE|C"
    );
    assert_eq!(
        segment(&m_with("MSH", 10, r"\F\"), "MSA").unwrap(),
        r"MSA|AA|\F\"
    );
    for (eleven, copied) in [
        ("T", "T"),
        ("D^x", "D"),
        ("X", "P"),
        ("", "P"),
        ("DD", "P"),
        ("~T", "P"),
    ] {
        let header = segment(&m_with("MSH", 11, eleven), "MSH").unwrap();
        assert!(
            header.ends_with(&format!("|K1|{}|2.5.1", copied)),
            "{:?}",
            eleven
        );
    }
}

/// The reply to the message has this code and error.
fn errs(message: &[u8], code: &str, error: &str) {
    assert_eq!(segment(message, "MSA").unwrap(), format!("MSA|{}|C7", code));
    let expected = format!("ERR||{}^HL70357|E", error);
    assert_eq!(segment(message, "ERR").unwrap(), expected);
}

#[test]
fn errors() {
    let sequence = "100^Segment sequence error";
    errs(&message(&[MSH, OBR]), "AE", &format!("OBR^1|{}", sequence));
    errs(&message(&[MSH, PID]), "AE", &format!("PID^1|{}", sequence));
    for (field, value, error) in [
        (7, "", "PID^1^7^1|101^Required field missing"),
        (3, "~~~~~", "PID^1^3^6|102^Data type error"),
        (3, r"A^^^&\", "PID^1^3^1^4^2|102^Data type error"),
        (8, "Z", "PID^1^8^1^1^1|103^Table value not found"),
    ] {
        errs(&m_with("PID", field, value), "AE", error);
    }
}

#[test]
fn rejections() {
    for (field, value, error) in [
        (9, "X^R01", "MSH^1^9^1^1^1|200^Unsupported message type"),
        (9, "ORU^X", "MSH^1^9^1^2^1|201^Unsupported event code"),
        (11, "X", "MSH^1^11^1^1^1|202^Unsupported processing id"),
        (12, "X", "MSH^1^12^1^1^1|203^Unsupported version id"),
    ] {
        errs(&m_with("MSH", field, value), "AR", error);
    }
}

#[test]
fn the_longest_reply() {
    let message = longest_reply_message();
    let number = "N".repeat(20);
    let length = replied(&message, STAMP, &number, MOST_BYTES).unwrap();
    assert_eq!(length, 3_074);
    assert_eq!(replied(&message, STAMP, &number, length), Ok(length));
    assert_eq!(replied(&message, STAMP, &number, length - 1), Err(14));
    assert_eq!(replied(&message, STAMP, &number, 1_200), Err(14));
}

/// The bytes of an ERR for a fault in the last segment of this name, of the
/// 512 that a message may have.
fn error_bytes(name: &str, numbers: &[u32], condition: u32, text: &str) -> usize {
    let place: String = numbers
        .iter()
        .map(|number| format!("^{}", number))
        .collect();
    format!("ERR||{}{}|{}^{}^HL70357|E\r", name, place, condition, text).len()
}

/// The bytes of each ERR for a fault in a field or its leaves, but for the
/// rejections.
fn field_error_bytes(name: &str, occurrence: u32, field: &Field) -> Vec<usize> {
    let leaves = match field.leaves {
        Some(leaves) => leaves.to_vec(),
        None => VALUE_TYPES.map(value_leaves).concat(),
    };
    let missing = "Required field missing";
    let place = [occurrence, field.number, field.most + 1];
    let mut lengths = vec![
        error_bytes(name, &place, 101, missing),
        error_bytes(name, &place, 102, "Data type error"),
    ];
    for leaf in &leaves {
        let (component, subcomponent) = leaf.place;
        let place = [
            occurrence,
            field.number,
            field.most,
            component,
            subcomponent,
        ];
        lengths.push(error_bytes(name, &place, 102, "Data type error"));
        // A leaf alone in its field is missing with the field.
        if leaf.starred && leaves.len() > 1 {
            lengths.push(error_bytes(name, &place, 101, missing));
        }
        if leaf.list.map(List::reason) == Some(Reason::NotInList) {
            lengths.push(error_bytes(name, &place, 103, "Table value not found"));
        }
    }
    lengths
}

#[test]
fn no_fault_makes_a_longer_reply() {
    // The ERR of the longest reply has 60 bytes.
    let longest = error_bytes("MSH", &[1, 11, 1, 1, 1], 202, "Unsupported processing id");
    assert_eq!(longest, 60);
    let mut lengths = vec![
        error_bytes("MSH", &[1, 9, 1, 1, 1], 200, "Unsupported message type"),
        error_bytes("MSH", &[1, 9, 1, 2, 1], 201, "Unsupported event code"),
        error_bytes("MSH", &[1, 12, 1, 1, 1], 203, "Unsupported version id"),
    ];
    for (name, most) in [
        ("MSH", 1),
        ("PID", 511),
        ("NK1", 510),
        ("ORC", 510),
        ("OBR", 510),
        ("OBX", 509),
        ("NTE", 509),
    ] {
        lengths.push(error_bytes(name, &[most], 100, "Segment sequence error"));
        let listed = Listed::named(<[u8; 3]>::try_from(name.as_bytes()).unwrap()).unwrap();
        for field in listed.fields() {
            lengths.extend(field_error_bytes(name, most, field));
        }
    }
    assert!(lengths.iter().all(|&length| length < longest));
}

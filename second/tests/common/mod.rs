//! Messages for the tests, and short ways to ask about them.
#![allow(dead_code)]

use second::calls;
use second::reply::MOST_BYTES;

pub const MSH: &str = r"MSH|^~\&|LABSYS|LAB1|DEPOT|D1|20240305101500||ORU^R01^ORU_R01|C7|P|2.5.1";
pub const PID: &str = "PID|1||A55||LANE^JANE||20240301";
pub const NK1: &str = "NK1|1|LANE^MARY|MTH";
pub const ORC: &str = "ORC|RE";
pub const OBR: &str = "OBR|1||F9|54089-8^Panel^LN|||20240304";
pub const OBX: &str = "OBX|1|NM|45222-7^C4-DC^LN||3.16|umol/L|||||F";
pub const NTE: &str = "NTE|1||Note";

/// Joins segments to a message.
pub fn message(segments: &[&str]) -> Vec<u8> {
    let ended = segments.iter().map(|segment| format!("{}\r", segment));
    ended.collect::<String>().into_bytes()
}

/// Document 01's M.
pub fn m() -> Vec<u8> {
    message(&[MSH, PID, OBR, OBX])
}

/// A segment with one field set to another value.
pub fn set(segment: &str, field: usize, value: &str) -> String {
    let index = if segment.starts_with("MSH") {
        field - 1
    } else {
        field
    };
    let mut fields: Vec<&str> = segment.split('|').collect();
    while fields.len() <= index {
        fields.push("");
    }
    fields[index] = value;
    fields.join("|")
}

/// M with one field of one of its segments set to another value.
pub fn m_with(name: &str, field: usize, value: &str) -> Vec<u8> {
    let changed: Vec<String> = [MSH, PID, OBR, OBX]
        .iter()
        .map(|segment| match segment.starts_with(name) {
            true => set(segment, field, value),
            false => segment.to_string(),
        })
        .collect();
    message(&changed.iter().map(String::as_str).collect::<Vec<_>>())
}

/// M with another OBX.
pub fn m_with_obx(obx: &str) -> Vec<u8> {
    message(&[MSH, PID, OBR, obx])
}

/// A message whose reply is as long as any: all that is copied is at its
/// limit and made of escapes, and the fault is the one with the longest ERR.
pub fn longest_reply_message() -> Vec<u8> {
    let escapes = |count: usize| r"\T\".repeat(count);
    let hd = format!("{}^{}^{}", escapes(20), escapes(199), escapes(20));
    let mut header = MSH.to_string();
    for field in 3..=6 {
        header = set(&header, field, &hd);
    }
    header = set(&set(&header, 10, &escapes(20)), 11, "X");
    message(&[&header, PID, OBR, OBX])
}

/// Whether a text has a `\` that begins none of the five escapes. Kept apart
/// from the program, so that its answers can be compared with this one.
pub fn has_bad_escape(text: &str) -> bool {
    match text.find('\\') {
        None => false,
        Some(at) => match text[at..].get(..3) {
            Some(r"\F\" | r"\S\" | r"\T\" | r"\R\" | r"\E\") => has_bad_escape(&text[at + 3..]),
            _ => true,
        },
    }
}

/// The desk line.
pub fn line(message: &[u8]) -> String {
    let mut out = Vec::new();
    calls::write_verdict(second::judge(message), &mut out).unwrap();
    String::from_utf8(out).unwrap()
}

/// The answer to a call.
pub fn answer(call: &str) -> String {
    let mut out = Vec::new();
    calls::answer(call.as_bytes(), &mut out);
    String::from_utf8(out).unwrap()
}

/// The reply to a message, as text with line feeds for CR.
pub fn reply(message: &[u8]) -> Result<String, u8> {
    let mut buffer = [0; MOST_BYTES];
    let length = second::reply(message, b"20240305101501", b"K1", &mut buffer);
    let length = length.map_err(|refusal| refusal.number())?;
    let text = String::from_utf8(buffer[..length].to_vec()).unwrap();
    Ok(text.replace('\r', "\n"))
}

//! The worked messages of document 01. P3 and P4, a slip and a reply, are of two that stand here anyway.

use crate::draft::{Draft, Segment};

/// A segment from its line without CR.
pub fn segment(line: &str) -> Segment {
    let mut parts = line.split('|').map(|part| part.as_bytes().to_vec());
    let name = parts.next().unwrap_or_default();
    // a draft's header starts with MSH-3
    let skipped = if name == b"MSH" { 1 } else { 0 };
    Segment { name, fields: parts.skip(skipped).collect() }
}

/// The message M.
pub fn m() -> Draft {
    let lines = [
        "MSH|^~\\&|LABSYS|LAB1|DEPOT|D1|20240305101500||ORU^R01^ORU_R01|C7|P|2.5.1",
        "PID|1||A55||LANE^JANE||20240301",
        "OBR|1||F9|54089-8^Panel^LN|||20240304",
        "OBX|1|NM|45222-7^C4-DC^LN||3.16|umol/L|||||F",
    ];
    Draft { segments: lines.iter().map(|line| segment(line)).collect() }
}

/// M with one field replaced.
fn with(at: usize, number: usize, value: &str) -> Vec<u8> {
    let mut draft = m();
    *draft.segments[at].field(number) = value.as_bytes().to_vec();
    draft.write()
}

/// M with its segments changed.
fn changed(change: fn(&mut Draft)) -> Vec<u8> {
    let mut draft = m();
    change(&mut draft);
    draft.write()
}

/// Each with what judging answers.
pub fn messages() -> Vec<(Vec<u8>, &'static str)> {
    let mut no_end = m().write();
    no_end.pop();
    vec![
        (m().write(), "accepted"),
        (with(3, 5, "3.1x"), "fault OBX 1 5 1 1 1 102 7"),
        (changed(|draft| draft.segments.insert(2, segment("ZZX|a\\b"))), "accepted"),
        (with(3, 5, "3.16^x"), "accepted"),
        (changed(|draft| drop(draft.segments.remove(1))), "fault OBR 1 0 0 0 0 100 1"),
        (with(0, 10, ""), "fault MSH 1 10 1 0 0 101 3"),
        (no_end, "refused 5"),
        (changed(|draft| draft.segments.truncate(2)), "fault PID 1 0 0 0 0 100 2"),
        (with(1, 3, "A~A~A~A~A~A"), "fault PID 1 3 6 0 0 102 4"),
        (with(3, 4, "ABCDEFGHIJKLMNOPQRST"), "accepted"),
        (with(3, 4, "ABCDEFGHIJKLMNOPQRSTU"), "fault OBX 1 4 1 1 1 102 5"),
    ]
}

//! Messages about the greatest length and the greatest number of segments.

use crate::numbers::MOST_BYTES;
use crate::profile::{type_limit, Simple};
use crate::random::Random;
use crate::short::{GROUP, HEADER, KIN, NOTE, OBSERVATION, PATIENT, START};

const UNLISTED: &str = "ZZX\r";
const WITH_DIGIT: &str = "A1B|\\\r";

/// What repeats up to the wanted number of segments, and whether the message is accepted where these are not too many.
pub static MANY: &[(&str, &str, bool)] = &[
    ("notes", NOTE, true),
    ("unlisted segments", UNLISTED, true),
    ("observations", OBSERVATION, true),
    ("groups", GROUP, true),
    ("segments with a digit", WITH_DIGIT, true),
    ("next of kin", KIN, false),
    ("patients", PATIENT, false),
];

/// A message of that many segments, three of which are the start.
pub fn many(line: &str, segments: usize) -> Vec<u8> {
    let mut out = START.as_bytes().to_vec();
    for _ in 3..segments {
        out.extend_from_slice(line.as_bytes());
    }
    out
}

/// What stands before and after the byte that fills the message up; whether it is accepted.
pub static LONG: &[(&str, &str, u8, &str, bool)] = &[
    ("unlisted segment", "ZZX|", b'x', "\r", true),
    ("unlisted field", "NTE||||", b'\\', "\r", true),
    ("unlisted component", "OBX|1|ST|P||a^", b'y', "||||||F\r", true),
    ("unlisted subcomponent", "OBX|1|ST|P||a&", b'&', "||||||F\r", true),
    ("fields", "NTE|1", b'|', "\r", true),
    ("repetitions of an unlisted field", "OBX|1|ST|P|||||||", b'~', "|F\r", true),
    ("components", "NTE|1||", b'^', "\r", true),
    ("one long text", "OBX|1|TX|P||", b'z', "||||||F\r", false),
    ("repetitions", "OBX|1|NM|P||1|||", b'~', "|||F\r", false),
    ("long last note", "NTE|||a~", b'n', "\r", false),
    ("escapes to the end", "NTE|||", b'\\', "\r", false),
    ("empty segments", "NTE\r", b'\r', "\r", false),
];

/// Rows of the list above: filled up with fields, and with repetitions.
pub const FIELDS: usize = 4;
pub const REPETITIONS: usize = 5;

/// A message of that many bytes: its last segment is filled up.
pub fn long(row: usize, length: usize) -> Vec<u8> {
    let (_, before, byte, after, _) = LONG[row];
    let mut out = START.as_bytes().to_vec();
    out.extend_from_slice(before.as_bytes());
    out.resize(length.max(out.len() + after.len()) - after.len(), byte);
    out.extend_from_slice(after.as_bytes());
    out
}

/// A single header of that length, so that nothing else is in the message.
pub fn header(length: usize, byte: u8) -> Vec<u8> {
    let mut out = HEADER.trim_end().as_bytes().to_vec();
    out.push(b'|');
    out.resize(length - 1, byte);
    out.push(b'\r');
    out
}

/// Full notes: seven of the greatest length, an eighth, and what is left in an unlisted field.
pub fn notes(length: usize) -> Vec<u8> {
    let mut out = START.as_bytes().to_vec();
    let note = [&b"n".repeat(type_limit(Simple::Long))[..], b"~"].concat();
    out.extend_from_slice(b"NTE|1||");
    out.extend(note.repeat(7));
    out.extend_from_slice(b"\rNTE|2||");
    out.extend(note.repeat(7));
    out.extend_from_slice(b"e|");
    out.resize(length - 1, b'u');
    out.push(b'\r');
    out
}

pub fn message(random: &mut Random) -> Vec<u8> {
    match random.below(10) {
        0..=4 => {
            let short = random.pick(&[NOTE, UNLISTED, WITH_DIGIT]);
            let line = if random.one_in(8) { random.pick(&[OBSERVATION, GROUP]) } else { short };
            let segments = random.pick(&[511, 512, 513, 513, 513, 513, 513, 514, 514, 600]);
            let mut out = many(line, segments);
            if random.one_in(3) {
                // these come before the number of segments
                let end = random.pick(&["MSH\r", "MSH|^~\\&|\r", "\r", "NT\r", "NTE", "nte\r", "ZZX\u{7F}\r"]);
                out.extend_from_slice(end.as_bytes());
            }
            out
        }
        5..=8 => {
            let row = random.below(LONG.len());
            let length =
                random.pick(&[65_534, 65_535, 65_536, 65_536, 65_536, 65_536, 65_536, 65_537, 66_000, 131_072]);
            let mut out = long(row, length);
            if random.one_in(4) {
                // a worse frame does not come before the length
                let at = random.below(out.len());
                out[at] = random.pick(&[0, 10, b'\r', 200]);
            }
            out
        }
        _ if random.one_in(2) => notes(random.pick(&[MOST_BYTES, MOST_BYTES + 1])),
        _ => header(random.pick(&[MOST_BYTES, MOST_BYTES + 1]), random.pick(b"|x~\\")),
    }
}

#[cfg(test)]
mod tests {
    use super::*;
    use crate::numbers::MOST_SEGMENTS;

    #[test]
    fn rows_are_the_named_ones() {
        assert_eq!((LONG[FIELDS].2, LONG[REPETITIONS].2), (b'|', b'~'));
    }

    #[test]
    fn sizes_are_as_asked() {
        for segments in [MOST_SEGMENTS, MOST_SEGMENTS + 1] {
            for (_, line, _) in MANY {
                let message = many(line, segments);
                assert_eq!(message.iter().filter(|byte| **byte == b'\r').count(), segments);
                assert!(message.len() <= MOST_BYTES);
            }
        }
        for length in [MOST_BYTES, MOST_BYTES + 1] {
            assert!((0..LONG.len()).all(|row| long(row, length).len() == length));
            assert_eq!(notes(length).len(), length);
            assert_eq!(header(length, b'x').len(), length);
        }
    }
}

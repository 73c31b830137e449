//! Every edge once, on short messages, so that the corpus does not hang on the luck of its seed.

use crate::corpus::Corpus;
use crate::large::many;
use crate::leaves::{TYPE_FIELDS, VALUE_FIELDS};
use crate::lent::{BAD_NUMBERS, BAD_STAMPS, REPLY_NUMBER, SLOTS, STAMP};
use crate::newer::UNLISTED;
use crate::numbers::{MOST_BYTES, MOST_SEGMENTS, SLOT_BYTES};
use crate::order::NEAR_NAMES;
use crate::places::{BAD_NAMES, WIDE};
use crate::short::{GROUP, HEADER, KIN, NOTE, OBSERVATION, ORDER, PATIENT, START};
use crate::slips::{slip, TAGS};
use crate::values::{CAPITALS_AND_DIGITS, ESCAPES, NEAR_ESCAPES, NEAR_INDEXES, NEAR_MOMENTS, NEAR_NUMBERS, NEAR_TIMES};

const BYTES: &[u8] = b"\x00\x01\x09\x0A\x0B\x0C\x0D\x0E\x1F\x20\x7E\x7F\x80\xA0\xFF";
const NAME_BYTES: &[u8] = b"/09:@AZ[`az{|^ \r";
/// Where the one letter of MSH-11 stands in the start.
const PROCESSING_ID: usize = 31;

fn judge(corpus: &mut Corpus, parts: &[&[u8]]) {
    corpus.judge(&parts.concat());
}

/// The start and one observation with this type and value.
fn observation(kind: &str, value: &str) -> Vec<u8> {
    [START, "OBX|1|", kind, "|P||", value, "||||||F\r"].concat().into_bytes()
}

/// Two wrongs of the frame at a time: the lower number comes first.
fn add_frames(corpus: &mut Corpus) {
    // nothing else can be wrong with no bytes
    for name in &BAD_NAMES[..8] {
        corpus.look(b"", name, [0, 0, 0, 0, 0]);
    }
    for one in 2..=8 {
        for other in one..=8 {
            let has = |number| number == one || number == other;
            let mut message = if has(8) { many("ZZX\r", MOST_SEGMENTS + 1) } else { START.as_bytes().to_vec() };
            if has(7) {
                message.extend_from_slice(b"MSH|x\r");
            }
            if has(6) {
                message.extend_from_slice(b"nte\r");
            }
            if has(5) {
                message.extend_from_slice(b"NTE");
            }
            if has(4) {
                message[8] = b'^';
            }
            if has(3) {
                message.insert(30, 0x7F);
            }
            if has(2) {
                message.splice(40..40, [b'x'; MOST_BYTES + 1]);
            }
            corpus.judge(&message);
            corpus.look(&message, if one == other { "NTE" } else { "nte" }, [9, 1, 1, 1, 1]);
        }
    }
}

/// Bytes beside the allowed ones: in a field, in a name, and each of the header's nine.
fn add_bytes(corpus: &mut Corpus) {
    let start = START.as_bytes();
    for byte in BYTES {
        judge(corpus, &[start, b"NTE|||a", &[*byte], b"\r"]);
    }
    for byte in NAME_BYTES {
        for at in 0..4 {
            let mut line = *b"NTE|\r";
            line[at] = *byte;
            judge(corpus, &[start, &line]);
        }
    }
    for name in NEAR_NAMES.iter().chain(UNLISTED) {
        judge(corpus, &[start, name.as_bytes(), b"|\\\r"]);
    }
    for at in 0..9 {
        let mut message = START.as_bytes().to_vec();
        message[at] = b'#';
        judge(corpus, &[&message]);
        judge(corpus, &[&start[..at]]);
        judge(corpus, &[&start[..at + 1], b"\r"]);
    }
}

fn add_types(corpus: &mut Corpus) {
    for (kind, list) in [("DTM", NEAR_MOMENTS), ("TM", NEAR_TIMES), ("NM", NEAR_NUMBERS), ("ST", NEAR_ESCAPES)] {
        for value in list {
            corpus.judge(&observation(kind, value));
        }
    }
    for value in NEAR_NUMBERS {
        corpus.judge(&observation("SN", &["^1^^", value].concat()));
    }
    for value in NEAR_INDEXES {
        judge(corpus, &[START.as_bytes(), b"NTE|", value.as_bytes(), b"\r"]);
    }
    for kind in TYPE_FIELDS {
        for value in VALUE_FIELDS.iter().step_by(5).chain(&["20240230"]) {
            corpus.judge(&observation(kind, value));
        }
    }
}

/// Every capital and digit where a list is of single ones.
fn add_codes(corpus: &mut Corpus) {
    let (start, header, group) = (START.as_bytes(), HEADER.as_bytes(), GROUP.as_bytes());
    for code in CAPITALS_AND_DIGITS {
        let code = &[*code][..];
        judge(corpus, &[header, b"PID|||A||B||2024|", code, b"||||||||||||||||Y\r", group]);
        judge(corpus, &[header, b"PID|||A||B||2024|||||||||||||||||", code, b"\r", group]);
        judge(corpus, &[&start[..PROCESSING_ID], code, &start[PROCESSING_ID + 1..]]);
        judge(corpus, &[&start[..start.len() - 1], b"||||||||||||||||||", code, b"\r"]);
        judge(corpus, &[start, b"OBX|1||P||||||||", code, b"\r"]);
    }
}

/// Every succession of up to three listed segments after the header.
fn add_orders(corpus: &mut Corpus) {
    static LINES: &[&str] = &[PATIENT, KIN, ORDER, GROUP, OBSERVATION, NOTE];
    let mut orders = vec![HEADER.to_string()];
    let mut shorter = orders.clone();
    for _ in 0..3 {
        shorter = shorter.iter().flat_map(|order| LINES.iter().map(move |line| [order, *line].concat())).collect();
        orders.extend(shorter.iter().cloned());
    }
    for order in orders {
        corpus.judge(order.as_bytes());
    }
}

/// Each number of a place in turn, and every bad name.
fn add_places(corpus: &mut Corpus) {
    let message = [START, "NTE|1||a^b&c~d\rNTE|2||^&&&e\r"].concat().into_bytes();
    for at in 0..5 {
        for number in WIDE {
            let mut numbers = [1, 3, 1, 1, 1];
            numbers[at] = *number;
            corpus.look(&message, "NTE", numbers);
        }
    }
    for (repetition, component, subcomponent) in [(1, 2, 1), (1, 2, 2), (1, 2, 3), (2, 1, 1), (2, 2, 1), (3, 1, 1)] {
        corpus.look(&message, "NTE", [1, 3, repetition, component, subcomponent]);
        corpus.look(&message, "MSH", [1, 1, repetition, component, subcomponent]);
        corpus.look(&message, "MSH", [1, 2, repetition, component, subcomponent]);
    }
    corpus.look(&message, "NTE", [2, 3, 1, 2, 4]);
    for name in BAD_NAMES {
        corpus.look(&message, name, [1, 1, 1, 1, 1]);
    }
    for field in 1..14 {
        corpus.look(&message, "MSH", [1, field, 1, 1, 1]);
    }
}

fn add_replies(corpus: &mut Corpus) {
    let mut reply = |stamp: &str, number: &str| corpus.reply_with(START.as_bytes(), stamp, number, 100);
    for stamp in BAD_STAMPS.iter().chain(NEAR_MOMENTS.iter().filter(|text| text.len() == 14)) {
        reply(stamp, REPLY_NUMBER);
    }
    for number in BAD_NUMBERS {
        reply(STAMP, number);
        reply("2024", number);
    }
}

fn add_texts(corpus: &mut Corpus) {
    for text in NEAR_ESCAPES.iter().chain(ESCAPES) {
        for room in [9, 1, 0] {
            corpus.resolve(text.as_bytes(), room);
        }
    }
}

fn add_slots(corpus: &mut Corpus) {
    let groups = [START, OBSERVATION, "OBR|1|R|G|Q|||2024\r"].concat().into_bytes();
    for slot in SLOTS {
        corpus.file(&groups, 1, *slot, &[b'#'; 3_000]);
        corpus.read(&[0; 3_000], *slot, 1);
    }
    for group in [0, 1, 2, 3, (1 << 32) + 1, u64::MAX] {
        corpus.file(&groups, group, 0, &[b'#'; SLOT_BYTES]);
        corpus.file(&groups, group, 1, &[b'#'; 2 * SLOT_BYTES - 1]);
    }
}

fn read(corpus: &mut Corpus, fields: &[(u8, Vec<u8>)]) {
    corpus.read(&slip(fields)[..SLOT_BYTES], 0, 6);
}

fn good_slip() -> [(u8, Vec<u8>); 6] {
    let text = |tag: u8| (tag, vec![b'a' + tag; 2]);
    [text(1), text(2), text(3), text(4), text(5), (6, vec![1, 2])]
}

/// Slips with one field wrong, or nearly wrong, at a time.
fn add_fields(corpus: &mut Corpus) {
    let good = good_slip();
    for at in 0..6 {
        for length in [0, 1, 2, 3, 20, 21, 198, 199, 200, 255, 256, 257, 900, 1_010] {
            let mut fields = good.clone();
            fields[at].1 = vec![if at < 5 { b'x' } else { 1 }; length];
            read(corpus, &fields);
        }
        for byte in BYTES {
            let mut fields = good.clone();
            fields[at].1[0] = *byte;
            read(corpus, &fields);
        }
        for tag in 0..8 {
            let mut fields = good.clone();
            fields[at].0 = tag;
            read(corpus, &fields);
        }
        let mut fields = good.to_vec();
        fields.remove(at);
        read(corpus, &fields);
        fields.insert(at, good[(at + 1) % 6].clone());
        read(corpus, &fields);
    }
}

/// Every tag, counts about the greatest, and single bits of a good slip and of the zeros after it.
fn add_slips(corpus: &mut Corpus) {
    let good = good_slip();
    for tag in TAGS {
        corpus.read(&slip(&good), 0, *tag);
    }
    for count in [0u16, 1, 255, 256, 508, 509, 510, 511, 512, 767, 65_535] {
        let mut fields = good.clone();
        fields[5].1 = count.to_be_bytes().to_vec();
        read(corpus, &fields);
    }
    for at in 0..SLOT_BYTES {
        if at % 97 == 0 || at >= SLOT_BYTES - 3 || (20..40).contains(&at) {
            let mut slot = slip(&good);
            slot[at] ^= 1;
            corpus.read(&slot, 0, 6);
        }
    }
}

pub fn add(corpus: &mut Corpus) {
    add_frames(corpus);
    add_bytes(corpus);
    add_types(corpus);
    add_codes(corpus);
    add_orders(corpus);
    add_places(corpus);
    add_replies(corpus);
    add_texts(corpus);
    add_slots(corpus);
    add_fields(corpus);
    add_slips(corpus);
}

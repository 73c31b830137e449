//! The length of a leaf is that of its text with the escapes resolved.

mod common;
use common::*;
use second::escape::resolved_length;
use second::reply::MOST_BYTES;
use second::{file, read_slip, resolve, Refusal};

/// The five escapes, and what each resolves to.
const FIVE: [(&str, &str); 5] = [
    (r"\F\", "|"),
    (r"\S\", "^"),
    (r"\T\", "&"),
    (r"\R\", "~"),
    (r"\E\", r"\"),
];

/// Texts that have a `\` which begins none of the five.
const BAD: [&str; 8] = [
    r"\", r"\\", r"\F", r"\X\", r"\f\", r"\F\F\", r"\E\\", r"\.br\",
];

/// A leaf: M's segment, the field, the text before the leaf in the field, and
/// the leaf's place as a fault names it.
type Leaf = (&'static str, usize, &'static str, &'static str);

/// Leaves that take any text, with their limits.
const PLAIN_LEAVES: [(Leaf, usize); 15] = [
    (("MSH", 3, "", "MSH 1 3 1 1 1"), 20),
    (("MSH", 4, "L^", "MSH 1 4 1 2 1"), 199),
    (("MSH", 5, "^^", "MSH 1 5 1 3 1"), 20),
    (("MSH", 9, "ORU^R01^", "MSH 1 9 1 3 1"), 20),
    (("MSH", 10, "", "MSH 1 10 1 1 1"), 20),
    (("PID", 3, "", "PID 1 3 1 1 1"), 199),
    (("PID", 3, "A^^^H&", "PID 1 3 1 4 2"), 199),
    (("PID", 3, "A^^^&&", "PID 1 3 1 4 3"), 20),
    (("PID", 5, "A~B^C^D^^^^", "PID 1 5 2 7 1"), 20),
    (("OBR", 2, "A^", "OBR 1 2 1 2 1"), 20),
    (("OBR", 4, "A^^^^", "OBR 1 4 1 5 1"), 199),
    (("OBX", 4, "", "OBX 1 4 1 1 1"), 20),
    (("OBX", 7, "", "OBX 1 7 1 1 1"), 60),
    (("OBX", 8, "A~B~", "OBX 1 8 3 1 1"), 20),
    (("OBX", 6, "A^^", "OBX 1 6 1 3 1"), 20),
];

/// Leaves that have a form, with their limits.
const FORMED_LEAVES: [(Leaf, usize); 8] = [
    (("PID", 1, "", "PID 1 1 1 1 1"), 4),
    (("OBR", 1, "", "OBR 1 1 1 1 1"), 4),
    (("PID", 25, "", "PID 1 25 1 1 1"), 16),
    (("OBX", 5, "", "OBX 1 5 1 1 1"), 16),
    (("MSH", 7, "", "MSH 1 7 1 1 1"), 24),
    (("PID", 7, "", "PID 1 7 1 1 1"), 24),
    (("OBR", 7, "", "OBR 1 7 1 1 1"), 24),
    (("OBX", 14, "", "OBX 1 14 1 1 1"), 24),
];

/// Leaves that have a list, with their limits and the end of their fault.
const LISTED_LEAVES: [(Leaf, usize, &str); 9] = [
    (("MSH", 9, "", "MSH 1 9 1 1 1"), 20, "200 9"),
    (("MSH", 9, "ORU^", "MSH 1 9 1 2 1"), 20, "201 10"),
    (("MSH", 11, "", "MSH 1 11 1 1 1"), 20, "202 11"),
    (("MSH", 12, "", "MSH 1 12 1 1 1"), 20, "203 12"),
    (("PID", 8, "", "PID 1 8 1 1 1"), 20, "103 8"),
    (("PID", 24, "", "PID 1 24 1 1 1"), 20, "103 8"),
    (("OBR", 25, "", "OBR 1 25 1 1 1"), 20, "103 8"),
    (("OBX", 2, "", "OBX 1 2 1 1 1"), 3, "103 8"),
    (("OBX", 11, "", "OBX 1 11 1 1 1"), 20, "103 8"),
];

/// M with a text in a leaf.
fn with(leaf: Leaf, text: &str) -> Vec<u8> {
    let (name, field, before, _) = leaf;
    let rest = match (name, field, before) {
        ("MSH", 9, "") => "^R01",
        _ => "",
    };
    m_with(name, field, &format!("{}{}{}", before, text, rest))
}

/// A leaf with this text is a fault that ends so; with "" it is none.
fn told(leaf: Leaf, text: &str, end: &str) {
    let expected = match end {
        "" => "accepted".to_string(),
        _ => format!("fault {} {}", leaf.3, end),
    };
    assert_eq!(line(&with(leaf, text)), expected, "{:?} {:?}", leaf, text);
}

/// Texts of so many resolved bytes: escapes altogether or in part, at the
/// front, in the middle and at the end.
fn texts(length: usize) -> Vec<String> {
    let mut texts = Vec::new();
    for (escape, _) in FIVE {
        texts.push(escape.repeat(length));
        texts.push(format!("{}{}", escape, "1".repeat(length - 1)));
        texts.push(format!("{}{}", "1".repeat(length - 1), escape));
        let half = length / 2;
        let rest = "1".repeat(length - half - 1);
        texts.push(format!("{}{}{}", "1".repeat(half), escape, rest));
        texts.push(format!("{}{}", escape.repeat(half), rest + "1"));
    }
    texts.push((0..length).map(|at| FIVE[at % 5].0).collect());
    texts
}

/// Texts with a bad escape at the front, in the middle and at the end of so
/// many bytes, plain ones and escapes.
fn bad_texts(bad: &str, length: usize) -> Vec<String> {
    let mut texts = Vec::new();
    for piece in ["x", r"\T\"] {
        for before in [0, length / 2, length] {
            let after = piece.repeat(length - before);
            texts.push(format!("{}{}{}", piece.repeat(before), bad, after));
        }
    }
    // None is made good by what follows it. The program itself isn't asked.
    assert!(texts.iter().all(|text| has_bad_escape(text)), "{:?}", bad);
    texts
}

#[test]
fn each_escape_counts_one() {
    for (escape, separator) in FIVE {
        for count in [0, 1, 2, 3, 19, 20, 199, 4_096] {
            let text = format!("a{}b", escape.repeat(count));
            assert_eq!(resolved_length(text.as_bytes()), Ok(count + 2));
            let mut buffer = vec![0; count + 2];
            assert_eq!(resolve(text.as_bytes(), &mut buffer), Ok(count + 2));
            assert_eq!(
                buffer,
                format!("a{}b", separator.repeat(count)).into_bytes()
            );
        }
    }
    assert_eq!(resolved_length(b""), Ok(0));
    assert_eq!(resolved_length(b"plain"), Ok(5));
    // `\E\` gives a mark that begins no escape with what follows it.
    assert_eq!(resolved_length(br"\E\T"), Ok(2));
    assert_eq!(resolved_length(br"\E\T\E\"), Ok(3));
    for bad in BAD {
        let length = resolved_length(bad.as_bytes());
        assert_eq!(length, Err(Refusal::BadEscape), "{:?}", bad);
    }
}

#[test]
fn a_leaf_may_be_as_long_as_its_limit_once_resolved() {
    for (leaf, limit) in PLAIN_LEAVES {
        for text in texts(limit) {
            told(leaf, &text, "");
        }
        for text in texts(limit + 1) {
            told(leaf, &text, "102 5");
        }
    }
}

#[test]
fn long_texts_and_notes() {
    for (name, two) in [("TX", "TX"), ("FT", "FT"), ("NTE", "ST")] {
        let judged = |text: &str| match name {
            "NTE" => line(&message(&[MSH, PID, OBR, &set(NTE, 3, text)])),
            _ => line(&m_with_obx(&set(&set(OBX, 2, two), 5, text))),
        };
        let place = match name {
            "NTE" => "NTE 1 3 1 1 1",
            _ => "OBX 1 5 1 1 1",
        };
        for (escape, _) in FIVE {
            assert_eq!(judged(&escape.repeat(4_096)), "accepted");
            let expected = format!("fault {} 102 5", place);
            assert_eq!(judged(&escape.repeat(4_097)), expected);
            let plain = "n".repeat(4_095);
            assert_eq!(judged(&format!("{}{}", plain, escape)), "accepted");
            assert_eq!(judged(&format!("{}n{}", plain, escape)), expected);
        }
        for bad in bad_texts(r"\X\", 4_097) {
            assert_eq!(judged(&bad), format!("fault {} 102 6", place));
        }
    }
}

#[test]
fn the_practice() {
    let practice = r"R \T\ D \T\ K Care";
    assert_eq!(resolved_length(practice.as_bytes()), Ok(14));
    for (leaf, limit) in PLAIN_LEAVES.iter().filter(|(_, limit)| *limit == 20) {
        told(*leaf, practice, "");
        let filled = format!("{}{}", practice, "x".repeat(limit - 14));
        told(*leaf, &filled, "");
        told(*leaf, &format!("{}x", filled), "102 5");
    }
}

#[test]
fn the_type_comes_after_the_length() {
    for (leaf, limit) in FORMED_LEAVES {
        for text in texts(limit) {
            told(leaf, &text, "102 7");
        }
        for text in texts(limit + 1) {
            told(leaf, &text, "102 5");
        }
        // Within the limit only once it is resolved.
        told(leaf, &r"\F\".repeat(limit / 3 + 1), "102 7");
    }
    let time = |text: &str| line(&m_with_obx(&set(&set(OBX, 2, "TM"), 5, text)));
    assert_eq!(time(&r"\S\".repeat(16)), "fault OBX 1 5 1 1 1 102 7");
    assert_eq!(time(&r"\S\".repeat(17)), "fault OBX 1 5 1 1 1 102 5");
    // The day is asked of what has the form, as before.
    let obr_7 = FORMED_LEAVES[6].0;
    told(obr_7, "20240230", "102 13");
    told(obr_7, r"20240230\T\", "102 7");
    told(obr_7, r"20240230235959.1234+01\T\", "102 7");
    told(obr_7, r"20240230235959.1234+010\T\", "102 7");
    told(obr_7, r"20240230235959.1234+0100\T\", "102 5");
}

#[test]
fn the_list_comes_after_the_length() {
    for (leaf, limit, end) in LISTED_LEAVES {
        for text in texts(limit) {
            told(leaf, &text, end);
        }
        for text in texts(limit + 1) {
            told(leaf, &text, "102 5");
        }
    }
}

#[test]
fn a_bad_escape_comes_before_the_length() {
    let plain = PLAIN_LEAVES.iter().map(|(leaf, limit)| (*leaf, *limit));
    let formed = FORMED_LEAVES.iter().map(|(leaf, limit)| (*leaf, *limit));
    let listed = LISTED_LEAVES.iter().map(|(leaf, limit, _)| (*leaf, *limit));
    for (leaf, limit) in plain.chain(formed).chain(listed) {
        for bad in BAD {
            for length in [1, limit - 1, limit, limit + 1, 3 * limit] {
                for text in bad_texts(bad, length) {
                    told(leaf, &text, "102 6");
                }
            }
        }
    }
}

/// The reply to a message in a buffer of so many bytes, or its refusal. What
/// isn't written stays.
fn replied(message: &[u8], number: &str, room: usize) -> Result<String, u8> {
    let mut buffer = vec![b'.'; room];
    let (stamp, number) = (b"20240305101501", number.as_bytes());
    let written = second::reply(message, stamp, number, &mut buffer);
    let kept = written.unwrap_or(0);
    assert!(buffer[kept..].iter().all(|&byte| byte == b'.'));
    buffer.truncate(kept);
    let text = String::from_utf8(buffer).unwrap();
    written.map(|_| text).map_err(Refusal::number)
}

#[test]
fn refusal_13_reads_the_new_length() {
    let asked = |ten: &str| {
        let reply = replied(&m_with("MSH", 10, ten), "K1", MOST_BYTES)?;
        let start = reply.find("MSA|").unwrap() + "MSA|AA|".len();
        let end = start + reply[start..].find('\r').unwrap();
        Ok(reply[start..end].to_string())
    };
    for text in texts(20) {
        assert_eq!(asked(&text), Ok(text));
    }
    for text in texts(21) {
        assert_eq!(asked(&text), Err(13), "{:?}", text);
    }
    for bad in BAD {
        for length in [1, 19, 20, 21, 60] {
            for text in bad_texts(bad, length) {
                assert_eq!(asked(&text), Err(13), "{:?}", text);
            }
        }
    }
    assert_eq!(asked(""), Err(13));
    // It comes after the reply number and before the room.
    let long = m_with("MSH", 10, &r"\E\".repeat(21));
    assert_eq!(replied(&long, "k1", 0), Err(12));
    assert_eq!(replied(&long, "K1", 0), Err(13));
    let good = m_with("MSH", 10, &r"\E\".repeat(20));
    assert_eq!(replied(&good, "K1", 0), Err(14));
}

/// The field of the reply that holds what was sent in MSH-3 to 6.
fn copied(field: usize, value: &str) -> String {
    let reply = replied(&m_with("MSH", field, value), "K1", MOST_BYTES).unwrap();
    let at = match field {
        3 | 4 => field + 1,
        _ => field - 3,
    };
    reply.split('|').nth(at).unwrap().to_string()
}

#[test]
fn a_reply_copies_the_written_form() {
    for field in 3..=6 {
        for (before, limit) in [("", 20), ("A^", 199), ("A^B^", 20)] {
            for text in texts(limit) {
                let value = format!("{}{}", before, text);
                assert_eq!(copied(field, &value), value);
            }
            let left = before.trim_end_matches('^');
            for text in texts(limit + 1) {
                let value = format!("{}{}", before, text);
                assert_eq!(copied(field, &value), left, "{:?}", value);
            }
            for bad in BAD {
                for length in [1, limit, limit + 1] {
                    for text in bad_texts(bad, length) {
                        let value = format!("{}{}", before, text);
                        assert_eq!(copied(field, &value), left, "{:?}", value);
                    }
                }
            }
        }
        // One that is left empty keeps its place before another.
        let long = r"\R\".repeat(21);
        let good = r"\R\".repeat(20);
        let value = format!("{}^{}^{}", long, r"\R\".repeat(200), good);
        assert_eq!(copied(field, &value), format!("^^{}", good));
    }
}

#[test]
fn the_longest_reply_is_within_its_bound() {
    let message = longest_reply_message();
    let number = "N".repeat(20);
    let reply = replied(&message, &number, MOST_BYTES).unwrap();
    assert_eq!((MOST_BYTES, reply.len()), (3_200, 3_074));
    assert!(reply.contains(&r"\T\".repeat(199)));
    assert!(reply.ends_with("|202^Unsupported processing id^HL70357|E\r"));
    assert_eq!(replied(&message, &number, 3_074).as_ref(), Ok(&reply));
    assert_eq!(replied(&message, &number, 3_073), Err(14));
    assert_eq!(replied(&message, &number, 1_200), Err(14));
}

#[test]
fn slips_keep_their_limits() {
    for (escape, separator) in FIVE {
        let text = escape.repeat(199);
        let obr = format!("OBR|1|{}|{}|{}|||2024", text, text, text);
        let header = set(MSH, 10, &escape.repeat(20));
        let accepted = message(&[&header, &set(PID, 3, &text), &obr, OBX]);
        let mut book = vec![b'#'; 2_048];
        assert_eq!(file(&accepted, 1, 1, &mut book), Ok(()));
        assert!(book[..1_024].iter().all(|&byte| byte == b'#'));
        let value = |tag| read_slip(&book, 1, tag).map(|part| book[part].to_vec());
        assert_eq!(value(1), Ok(separator.repeat(20).into_bytes()));
        for tag in 2..=5 {
            assert_eq!(value(tag), Ok(separator.repeat(199).into_bytes()));
        }
        assert_eq!(value(6), Ok(vec![0, 1]));
        // Five fields of 3 bytes, 20 and 4 times 199, and the count's 5.
        assert_eq!(read_slip(&book, 1, 6), Ok(1_024 + 834..1_024 + 836));
        assert!(book[1_024 + 836..].iter().all(|&byte| byte == 0));
    }
    let long = r"\F\".repeat(200);
    for (name, field) in [("PID", 3), ("OBR", 2), ("OBR", 3), ("OBR", 4)] {
        let refused = file(&m_with(name, field, &long), 1, 0, &mut [0; 1_024]);
        assert_eq!(refused, Err(Refusal::NotAccepted));
    }
    let refused = file(&m_with("MSH", 10, &long[..63]), 1, 0, &mut [0; 1_024]);
    assert_eq!(refused, Err(Refusal::NotAccepted));
}

#[test]
fn a_slip_that_is_read_has_no_escapes() {
    // Its values are resolved, so a `\` in one is a byte like any other.
    let slip = |first: &[u8]| {
        let mut slip = vec![1, 0, first.len() as u8];
        slip.extend_from_slice(first);
        for tag in [2, 4, 5] {
            slip.extend_from_slice(&[tag, 0, 1, b'x']);
        }
        slip.extend_from_slice(&[6, 0, 2, 0, 0]);
        slip.resize(1_024, 0);
        slip
    };
    let written = |count: usize| read_slip(&slip(r"\T\".repeat(count).as_bytes()), 0, 1);
    assert_eq!(written(6), Ok(3..21));
    assert_eq!(written(7), Err(Refusal::BadSlip));
    assert_eq!(read_slip(&slip(&[b'\\'; 20]), 0, 1), Ok(3..23));
    assert_eq!(read_slip(&slip(&[b'\\'; 21]), 0, 1), Err(Refusal::BadSlip));
}

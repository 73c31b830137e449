//! Worked messages of document 01, by their numbers, and what a refusal leaves.

use ithwyral::{
    file, judge, look_up, read_slip, reply, resolve, tag, Place, Refusal, Verdict, LONGEST_MESSAGE,
    LONGEST_REPLY, SLOT_SIZE,
};

const M: &str = "MSH|^~\\&|LABSYS|LAB1|DEPOT|D1|20240305101500||ORU^R01^ORU_R01|C7|P|2.5.1\r\
    PID|1||A55||LANE^JANE||20240301\r\
    OBR|1||F9|54089-8^Panel^LN|||20240304\r\
    OBX|1|NM|45222-7^C4-DC^LN||3.16|umol/L|||||F\r";

const STAMP: &[u8] = b"20240305101501";

/// M with the one place where `old` stands changed.
fn changed(old: &str, new: &str) -> Vec<u8> {
    assert_eq!(M.matches(old).count(), 1, "{old}");
    M.replace(old, new).into_bytes()
}

fn line(message: &[u8]) -> String {
    match judge(message) {
        Ok(verdict) => verdict.to_string(),
        Err(refusal) => format!("refused {}", refusal.number()),
    }
}

fn place(name: &[u8; 3], field: u64, component: u64) -> Place {
    Place {
        name: *name,
        occurrence: 1,
        field,
        repetition: 1,
        component,
        subcomponent: 1,
    }
}

#[test]
fn p1_is_accepted() {
    assert_eq!(judge(M.as_bytes()), Ok(Verdict::Accepted));
}

#[test]
fn p2_is_a_number_with_a_letter() {
    assert_eq!(line(&changed("3.16", "3.1x")), "fault OBX 1 5 1 1 1 102 7");
}

#[test]
fn p3_is_the_slip() {
    let mut book = vec![7; 3 * SLOT_SIZE + 5];
    file(M.as_bytes(), 1, 1, &mut book).unwrap();
    let mut slip =
        b"\x01\x00\x02C7\x02\x00\x03A55\x04\x00\x02F9\x05\x00\x0754089-8\x06\x00\x02\x00\x01"
            .to_vec();
    slip.resize(SLOT_SIZE, 0);
    assert_eq!(book[SLOT_SIZE..2 * SLOT_SIZE], slip);
    assert!(book[..SLOT_SIZE]
        .iter()
        .chain(&book[2 * SLOT_SIZE..])
        .all(|&b| b == 7));
    assert_eq!(read_slip(&book, 1, tag::CONTROL_NUMBER), Ok(&b"C7"[..]));
    assert_eq!(read_slip(&book, 1, tag::PLACER), Err(Refusal::NoTag));
    assert_eq!(read_slip(&book, 1, tag::FILLER), Ok(&b"F9"[..]));
    assert_eq!(read_slip(&book, 1, tag::SERVICE), Ok(&b"54089-8"[..]));
    assert_eq!(read_slip(&book, 1, tag::OBSERVATIONS), Ok(&b"\x00\x01"[..]));
    assert_eq!(read_slip(&book, 0, tag::PATIENT), Err(Refusal::BadSlip));
    assert_eq!(read_slip(&book, 3, tag::PATIENT), Err(Refusal::NoSlot));
    // the value is that very part of the book
    let patient = read_slip(&book, 1, tag::PATIENT).unwrap();
    assert_eq!(
        (patient, patient.as_ptr()),
        (&b"A55"[..], book[SLOT_SIZE + 8..].as_ptr())
    );
}

#[test]
fn p4_is_the_reply_to_p2() {
    let mut buffer = [b'.'; LONGEST_REPLY];
    let text = "MSH|^~\\&|DEPOT|D1|LABSYS|LAB1|20240305101501||ACK^R01^ACK|K1|P|2.5.1\rMSA|AE|C7\r\
        ERR||OBX^1^5^1^1^1|102^Data type error^HL70357|E\r";
    let written = reply(&changed("3.16", "3.1x"), STAMP, b"K1", &mut buffer).unwrap();
    assert_eq!(String::from_utf8_lossy(written), text);
    assert!(buffer[text.len()..].iter().all(|&b| b == b'.'));
}

#[test]
fn p8_has_no_control_number() {
    let message = changed("|C7|", "||");
    assert_eq!(line(&message), "fault MSH 1 10 1 0 0 101 3");
    let mut buffer = [b'.'; LONGEST_REPLY];
    assert_eq!(
        reply(&message, STAMP, b"K1", &mut buffer),
        Err(Refusal::NoControlNumber)
    );
    assert_eq!(buffer, [b'.'; LONGEST_REPLY]);
}

#[test]
fn a_day_must_exist() {
    assert_eq!(
        line(&changed("20240301", "20240230")),
        "fault PID 1 7 1 1 1 102 13"
    );
    assert_eq!(line(&changed("20240301", "20240229")), "accepted");
    let mut buffer = [b'.'; LONGEST_REPLY];
    assert_eq!(
        reply(M.as_bytes(), b"20230229101501", b"K1", &mut buffer),
        Err(Refusal::BadStamp)
    );
    assert_eq!(buffer, [b'.'; LONGEST_REPLY]);
}

#[test]
fn a_length_is_that_of_the_text_that_is_read() {
    let practice = |name| line(&changed("LAB1", name));
    assert_eq!(practice("R \\T\\ D \\T\\ K Care, West"), "accepted");
    assert_eq!(
        practice("R \\T\\ D \\T\\ K Care, North"),
        "fault MSH 1 4 1 1 1 102 5"
    );
    assert_eq!(
        practice("R \\X\\ D \\T\\ K Care, North"),
        "fault MSH 1 4 1 1 1 102 6"
    );
}

#[test]
fn the_longest_reply_has_room() {
    let ampersands = |number| "\\T\\".repeat(number);
    let party = [ampersands(20), ampersands(199), ampersands(20)].join("^");
    let parties = [&party[..]; 4].join("|");
    let message = M
        .replace("LABSYS|LAB1|DEPOT|D1", &parties)
        .replace("|C7|P|", &format!("|{}|Q|", ampersands(20)));
    let text = format!(
        "MSH|^~\\&|{parties}|20240305101501||ACK^R01^ACK|{}|P|2.5.1\rMSA|AR|{}\r\
        ERR||MSH^1^11^1^1^1|202^Unsupported processing id^HL70357|E\r",
        "K".repeat(20),
        ampersands(20)
    );
    assert_eq!(text.len(), 3074);
    // written at once, and by way of what is set aside
    for room in [LONGEST_REPLY, text.len()] {
        let mut buffer = vec![b'.'; room];
        let written = reply(message.as_bytes(), STAMP, &[b'K'; 20], &mut buffer).unwrap();
        assert_eq!(String::from_utf8_lossy(written), text);
        assert!(buffer[text.len()..].iter().all(|&b| b == b'.'));
    }
    let mut buffer = vec![b'.'; text.len() - 1];
    assert_eq!(
        reply(message.as_bytes(), STAMP, &[b'K'; 20], &mut buffer),
        Err(Refusal::NoRoom)
    );
    assert!(buffer.iter().all(|&b| b == b'.'));
}

#[test]
fn sizes_are_those_of_the_header_and_of_the_core() {
    let header = include_str!("../../include/ithwyral.h");
    let message = include_str!("../../crates/frame/src/limits.rt");
    let reply = include_str!("../../crates/reply/src/limits.rt");
    let slot = include_str!("../../crates/slot/src/lib.rt");
    assert!(header.contains(&format!("ITHWYRAL_LONGEST_REPLY = {LONGEST_REPLY},")));
    assert!(header.contains(&format!("ITHWYRAL_SLOT_SIZE = {SLOT_SIZE},")));
    assert!(header.contains(&format!("ITHWYRAL_LONGEST_MESSAGE = {LONGEST_MESSAGE}\n")));
    assert!(message.contains(&format!("LONGEST_MESSAGE: usize = {LONGEST_MESSAGE};")));
    assert!(reply.contains(&format!("LONGEST_REPLY: usize = {LONGEST_REPLY};")));
    assert!(slot.contains(&format!("SLOT_SIZE: usize = {SLOT_SIZE};")));
}

#[test]
fn p9_has_no_end() {
    assert_eq!(line(&M.as_bytes()[..M.len() - 1]), "refused 5");
}

#[test]
fn p11_repeats_too_often() {
    assert_eq!(
        line(&changed("A55", "A~A~A~A~A~A")),
        "fault PID 1 3 6 0 0 102 4"
    );
}

#[test]
fn a_text_is_the_very_part() {
    let message = M.as_bytes();
    let text = look_up(message, &place(b"PID", 5, 2)).unwrap().unwrap();
    assert_eq!(text, b"JANE");
    assert_eq!(text.as_ptr(), message[M.find("JANE").unwrap()..].as_ptr());
    assert_eq!(look_up(message, &place(b"PID", 2, 1)), Ok(None));
    assert_eq!(
        look_up(message, &place(b"ORC", 1, 1)),
        Err(Refusal::NoSegment)
    );
    assert_eq!(
        look_up(message, &place(b"pid", 5, 2)),
        Err(Refusal::BadPlace)
    );
    assert_eq!(
        look_up(message, &place(b"PID", u64::MAX, 1)),
        Err(Refusal::BadPlace)
    );
}

#[test]
fn a_refusal_leaves_what_was_lent() {
    let mut buffer = *b"......";
    assert_eq!(
        resolve(b"too long a text", &mut buffer),
        Err(Refusal::NoRoom)
    );
    assert_eq!(resolve(b"\\Q\\", &mut buffer), Err(Refusal::BadEscape));
    assert_eq!(
        reply(M.as_bytes(), STAMP, b"K1", &mut buffer),
        Err(Refusal::NoRoom)
    );
    assert_eq!(
        reply(M.as_bytes(), STAMP, b"k1", &mut buffer),
        Err(Refusal::BadReplyNumber)
    );
    assert_eq!(&buffer, b"......");
    let mut book = vec![7; 2 * SLOT_SIZE];
    assert_eq!(file(M.as_bytes(), 1, 2, &mut book), Err(Refusal::NoSlot));
    assert_eq!(
        file(M.as_bytes(), 1, usize::MAX / SLOT_SIZE + 2, &mut book),
        Err(Refusal::NoSlot)
    );
    assert_eq!(file(M.as_bytes(), 0, 0, &mut book), Err(Refusal::NoGroup));
    assert_eq!(
        file(&changed("3.16", "3.1x"), 1, 0, &mut book),
        Err(Refusal::NotAccepted)
    );
    assert!(book.iter().all(|&b| b == 7));
}

#[test]
fn slices_of_no_bytes_may_be_lent() {
    assert_eq!(judge(b""), Err(Refusal::Empty));
    assert_eq!(resolve(b"", &mut []), Ok(&b""[..]));
    assert_eq!(
        reply(M.as_bytes(), b"", b"", &mut []),
        Err(Refusal::BadStamp)
    );
    assert_eq!(file(M.as_bytes(), 1, 0, &mut []), Err(Refusal::NoSlot));
    assert_eq!(read_slip(b"", 0, tag::PATIENT), Err(Refusal::NoSlot));
}

#[test]
fn one_byte_decides_the_length() {
    let mut message = M.trim_end().as_bytes().to_vec();
    message.resize(LONGEST_MESSAGE - 1, b'x');
    message.push(b'\r');
    assert_eq!(line(&message), "fault OBX 1 11 1 1 1 102 5");
    message.push(b'\r');
    assert_eq!(line(&message), "refused 2");
}

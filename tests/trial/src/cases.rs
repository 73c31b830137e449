//! The rule that lengths are counted after resolving: which of its cases a call meets, by its answer. In most of them a
//! program that counts written bytes and tests the length first would answer otherwise. It would answer the same where a
//! text is too long in both counts (`FOUND_LONG`, `LEFT_OUT`, `NO_CONTROL`), and where a bad escape has the same answer
//! as a text that is too long (`BAD_LEFT_OUT`, `BAD_CONTROL`).

use crate::profile::{fields_of, leaves, limit, type_limit, Field, Leaf, Simple, TYPES};
use crate::resolved;
use crate::spelling;

const FOUND_LONG: &str = "reason 5, escapes in the leaf";
const BAD_LONG: &str = "reason 6, too long as written";
const BAD_OVER: &str = "reason 6, too long in any count";
const FORMLESS: &str = "reason 7, too long as written";
const UNLISTED: &str = "reasons 8 to 12, too long as written";
const ACCEPTED: &str = "accepted, too long as written";
const LONG_REPLY: &str = "reply of over 1,200 bytes";
const COPIED: &str = "reply copies, too long as written";
const LEFT_OUT: &str = "reply leaves out, escapes";
const BAD_LEFT_OUT: &str = "reply leaves out, bad and too long";
const CONTROL: &str = "reply, MSH-10 too long as written";
const NO_CONTROL: &str = "refusal 13, escapes in MSH-10";
const BAD_CONTROL: &str = "refusal 13, bad and too long";
const FILED: &str = "slip, too long as written";

/// All of them.
pub static TITLES: &[&str] = &[
    FOUND_LONG, BAD_LONG, BAD_OVER, FORMLESS, UNLISTED, ACCEPTED, LONG_REPLY, COPIED, LEFT_OUT, BAD_LEFT_OUT, CONTROL,
    NO_CONTROL, BAD_CONTROL, FILED,
];

/// The longest reply while written bytes were counted.
const OLD_MOST_REPLY_BYTES: usize = 1_200;
const MOST_CONTROL_BYTES: usize = 20;

fn nth(whole: &[u8], separator: u8, number: usize) -> &[u8] {
    whole.split(|byte| *byte == separator).nth(number.wrapping_sub(1)).unwrap_or(b"")
}

/// A leaf of a segment; of MSH from MSH-3 on.
fn leaf_at(segment: &[u8], field: usize, [repetition, component, subcomponent]: [usize; 3]) -> &[u8] {
    // the header's name has the separator that is MSH-1 after it
    let field = if segment.starts_with(b"MSH") { field } else { field + 1 };
    let repetition = nth(nth(segment, b'|', field), b'~', repetition);
    nth(nth(repetition, b'^', component), b'&', subcomponent)
}

fn segments(message: &[u8]) -> impl Iterator<Item = &[u8]> {
    message.split(|byte| *byte == b'\r')
}

/// The segment of that name and occurrence; none of its bytes where there is none.
fn segment<'m>(message: &'m [u8], name: &[u8], occurrence: usize) -> &'m [u8] {
    let mut named = segments(message).filter(|segment| segment.starts_with(name));
    named.nth(occurrence.wrapping_sub(1)).unwrap_or(b"")
}

/// The listed leaves of a field in its segment.
fn leaves_in(segment: &[u8], field: &Field) -> &'static [Leaf] {
    let named = leaf_at(segment, 2, [1, 1, 1]);
    match TYPES.iter().find(|kind| kind.as_bytes() == named) {
        _ if field.kind != "*" => leaves(field.kind),
        Some(kind) => leaves(kind),
        None => leaves("ST"),
    }
}

fn is_over(text: &[u8], most: usize) -> bool {
    resolved::length(text) > most
}

/// Longer than its limit as it is written, and not once it is resolved.
fn is_long_as_written(text: &[u8], most: usize) -> bool {
    text.len() > most && !is_over(text, most) && !resolved::has_bad_escape(text)
}

/// Too long though its escapes, of which it has some, are counted one each.
fn is_over_with_escapes(text: &[u8], most: usize) -> bool {
    text.contains(&b'\\') && is_over(text, most) && !resolved::has_bad_escape(text)
}

fn is_bad_and_over(text: &[u8], most: usize) -> bool {
    resolved::has_bad_escape(text) && is_over(text, most)
}

fn has_long_leaf(segment: &[u8]) -> bool {
    let name = &segment[..segment.len().min(3)];
    segment.contains(&b'\\')
        && fields_of(name).iter().any(|field| {
            (1..=field.most).any(|repetition| {
                leaves_in(segment, field).iter().any(|leaf| {
                    let text = leaf_at(segment, field.number, [repetition, leaf.component, leaf.subcomponent]);
                    is_long_as_written(text, limit(field, leaf.simple))
                })
            })
        })
}

/// Of a fault in a leaf, by its place and reason.
fn of_fault(message: &[u8], answer: &str) -> Vec<&'static str> {
    let words: Vec<&str> = answer.split(' ').collect();
    let number = |at: usize| words.get(at).and_then(|word| word.parse().ok()).unwrap_or(0);
    let (component, subcomponent, reason) = (number(5), number(6), number(8));
    let segment = segment(message, words[1].as_bytes(), number(2));
    let field = match fields_of(words[1].as_bytes()).iter().find(|field| field.number == number(3)) {
        Some(field) => field,
        None => return Vec::new(),
    };
    let fits = |leaf: &&Leaf| (leaf.component, leaf.subcomponent) == (component, subcomponent);
    let most = match leaves_in(segment, field).iter().find(fits) {
        Some(leaf) => limit(field, leaf.simple),
        None => return Vec::new(),
    };
    let text = leaf_at(segment, field.number, [number(4), component, subcomponent]);
    match reason {
        5 if text.contains(&b'\\') => vec![FOUND_LONG],
        6 if is_over(text, most) => vec![BAD_LONG, BAD_OVER],
        6 if text.len() > most => vec![BAD_LONG],
        7 if text.len() > most => vec![FORMLESS],
        8..=12 if text.len() > most => vec![UNLISTED],
        _ => Vec::new(),
    }
}

/// Of a reply that was written, by what it copies from the header.
fn of_reply(message: &[u8], length: usize) -> Vec<&'static str> {
    let header = segment(message, b"MSH", 1);
    let mut found = Vec::new();
    let mut add = |title: &'static str, met: bool| {
        if met {
            found.push(title);
        }
    };
    let hd: Vec<(&[u8], usize)> = (3..=6)
        .flat_map(|number| {
            leaves("HD")
                .iter()
                .map(move |leaf| (leaf_at(header, number, [1, leaf.component, 1]), type_limit(leaf.simple)))
        })
        .collect();
    let any = |test: fn(&[u8], usize) -> bool| hd.iter().any(|(text, most)| test(text, *most));
    add(LONG_REPLY, length > OLD_MOST_REPLY_BYTES);
    add(COPIED, any(is_long_as_written));
    add(LEFT_OUT, any(is_over_with_escapes));
    add(BAD_LEFT_OUT, any(is_bad_and_over));
    add(CONTROL, leaf_at(header, 10, [1, 1, 1]).len() > MOST_CONTROL_BYTES);
    found
}

fn of_refused_control(message: &[u8]) -> Vec<&'static str> {
    let text = leaf_at(segment(message, b"MSH", 1), 10, [1, 1, 1]);
    if is_over_with_escapes(text, MOST_CONTROL_BYTES) {
        vec![NO_CONTROL]
    } else if is_bad_and_over(text, MOST_CONTROL_BYTES) {
        vec![BAD_CONTROL]
    } else {
        Vec::new()
    }
}

fn of_slip(message: &[u8], group: usize) -> Vec<&'static str> {
    let order = segment(message, b"OBR", group);
    let control = leaf_at(segment(message, b"MSH", 1), 10, [1, 1, 1]).len() > MOST_CONTROL_BYTES;
    let texts = [(segment(message, b"PID", 1), 3), (order, 2), (order, 3), (order, 4)];
    let most = type_limit(Simple::Short);
    if control || texts.iter().any(|(segment, field)| leaf_at(segment, *field, [1, 1, 1]).len() > most) {
        vec![FILED]
    } else {
        Vec::new()
    }
}

/// The cases that a call meets.
pub fn met(call: &[u8], answer: &[u8]) -> Vec<&'static str> {
    let mut words = call.split(|byte| *byte == b' ');
    let entry = words.next().unwrap_or(b"");
    let said = String::from_utf8_lossy(answer);
    let message = || spelling::first_string(call).unwrap_or_default();
    match entry {
        b"judge" if said == "accepted" => {
            let message = message();
            let long = segments(&message).any(has_long_leaf);
            if long {
                vec![ACCEPTED]
            } else {
                Vec::new()
            }
        }
        b"judge" if said.starts_with("fault ") => of_fault(&message(), &said),
        b"reply" if said.starts_with("written ") => of_reply(&message(), spelling::written(answer).unwrap_or(0)),
        b"reply" if said.starts_with("refused 13 ") => of_refused_control(&message()),
        b"file" if said.starts_with("filed ") => {
            let group = words.nth(1).and_then(|word| std::str::from_utf8(word).ok()?.parse().ok());
            of_slip(&message(), group.unwrap_or(0))
        }
        _ => Vec::new(),
    }
}

#[cfg(test)]
mod tests {
    use super::*;
    use crate::short::{GROUP, HEADER, PATIENT, START};

    /// The cases of a call about a message; its answer is the second program's.
    fn asked(entry: &str, message: &str, rest: &str) -> Vec<&'static str> {
        let mut line = entry.as_bytes().to_vec();
        spelling::word(message.as_bytes(), &mut line);
        line.extend_from_slice(rest.as_bytes());
        met(&line, &spelling::answer(&line))
    }

    fn judged(line: &str) -> Vec<&'static str> {
        asked("judge", &[START, line, "\r"].concat(), "")
    }

    #[test]
    fn faults_are_told_by_their_leaf() {
        let escapes = |count: usize| "\\T\\".repeat(count);
        assert_eq!(judged("NTE|1"), [""; 0]);
        assert_eq!(judged(&["NTE||", &escapes(6)].concat()), [""; 0]);
        assert_eq!(judged(&["NTE||", &escapes(7)].concat()), [ACCEPTED]);
        assert_eq!(judged(&["NTE||", &escapes(20)].concat()), [ACCEPTED]);
        assert_eq!(judged(&["NTE||", &escapes(21)].concat()), [FOUND_LONG]);
        assert_eq!(judged(&["NTE||", &"x".repeat(21)].concat()), [""; 0]);
        assert_eq!(judged(&["NTE||", &escapes(6), "\\"].concat()), [""; 0]);
        assert_eq!(judged(&["NTE||", &escapes(7), "\\"].concat()), [BAD_LONG]);
        assert_eq!(judged(&["NTE||", &escapes(20), "\\"].concat()), [BAD_LONG, BAD_OVER]);
        assert_eq!(judged(&["NTE|", &escapes(1)].concat()), [""; 0]);
        assert_eq!(judged(&["NTE|", &escapes(2)].concat()), [FORMLESS]);
        assert_eq!(judged(&["OBX|1|", &escapes(2), "|P||||||||F"].concat()), [UNLISTED]);
        assert_eq!(judged(&["OBX|1|TX|P||", &escapes(70), "||||||F"].concat()), [""; 0]);
        assert_eq!(judged(&["OBX|1|ST|P||", &escapes(70), "||||||F"].concat()), [ACCEPTED]);
    }

    #[test]
    fn replies_and_slips_are_told_by_what_they_copy() {
        let escapes = |count: usize| "\\E\\".repeat(count);
        let whole = |header: &str| [header, PATIENT, GROUP].concat();
        let rest = " =20240305101501 =K1 =.*3199;";
        let replied = |header: &str| asked("reply", &whole(header), rest);
        assert_eq!(replied(HEADER), [""; 0]);
        let hd = |text: &str| HEADER.replace("||L|", &["|", text, "|L|"].concat());
        assert_eq!(replied(&hd(&escapes(20))), [COPIED]);
        assert_eq!(replied(&hd(&escapes(21))), [LEFT_OUT]);
        assert_eq!(replied(&hd(&"x".repeat(21))), [""; 0]);
        assert_eq!(replied(&hd(&[&escapes(21), "\\"].concat())), [BAD_LEFT_OUT]);
        let long = HEADER.replace("||L|||", &["|a^@|b^@|c^@|d^@|", ""].concat().replace('@', &escapes(199)));
        assert_eq!(replied(&long), [LONG_REPLY, COPIED]);
        let ten = |text: &str| HEADER.replace("C7", text);
        assert_eq!(replied(&ten(&escapes(20))), [CONTROL]);
        assert_eq!(replied(&ten(&escapes(21))), [NO_CONTROL]);
        assert_eq!(replied(&ten(&[&escapes(20), "\\"].concat())), [BAD_CONTROL]);
        assert_eq!(replied(&ten(&"x".repeat(21))), [""; 0]);
        let filed = |message: &str| asked("file", message, " 1 0 =%00*1023;");
        assert_eq!(filed(START), [""; 0]);
        assert_eq!(filed(&whole(&ten(&escapes(20)))), [FILED]);
        assert_eq!(filed(&START.replace("|F|", &["|", &escapes(199), "|"].concat())), [FILED]);
    }
}

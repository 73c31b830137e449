//! Words of calls and answers; the spelling itself is the second program's.

pub fn string(bytes: &[u8], out: &mut Vec<u8>) {
    second::calls::spell(bytes, out);
}

/// A space and a number.
pub fn number(number: u64, out: &mut Vec<u8>) {
    out.push(b' ');
    out.extend_from_slice(number.to_string().as_bytes());
}

/// A space and a string.
pub fn word(bytes: &[u8], out: &mut Vec<u8>) {
    out.push(b' ');
    string(bytes, out);
}

pub fn answer(line: &[u8]) -> Vec<u8> {
    let mut out = Vec::new();
    second::calls::answer(line, &mut out);
    out
}

/// The string that a line has as its last word.
pub fn last_string(line: &[u8]) -> Option<Vec<u8>> {
    let word = line.rsplit(|byte| *byte == b' ').next()?;
    if word.first() == Some(&b'=') {
        second::calls::unspell(word)
    } else {
        None
    }
}

/// The string that a word of a line is, counted from 0.
pub fn string_at(line: &[u8], at: usize) -> Option<Vec<u8>> {
    let word = line.split(|byte| *byte == b' ').nth(at)?;
    second::calls::unspell(word)
}

/// The first string of a call: the message, text or book.
pub fn first_string(line: &[u8]) -> Option<Vec<u8>> {
    string_at(line, 1)
}

/// The number of bytes that a reply or resolving wrote.
pub fn written(line: &[u8]) -> Option<usize> {
    let mut words = line.split(|byte| *byte == b' ');
    if words.next() != Some(b"written") {
        return None;
    }
    std::str::from_utf8(words.next()?).ok()?.parse().ok()
}

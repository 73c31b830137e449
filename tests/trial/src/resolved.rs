//! How long a text is once its escapes are resolved. Written from the words of the rule alone, apart from both programs
//! compared.

/// The bytes of a text where each of the five escapes counts one, as any other byte does, and how many `\` of it begin
/// none. Read from the left.
fn count(text: &[u8]) -> (usize, usize) {
    let (mut bytes, mut bad, mut at) = (0, 0, 0);
    while at < text.len() {
        let escape = text.len() - at >= 3 && b"FSTRE".contains(&text[at + 1]) && text[at + 2] == b'\\';
        bytes += 1;
        if text[at] == b'\\' && escape {
            at += 3;
        } else {
            bad += usize::from(text[at] == b'\\');
            at += 1;
        }
    }
    (bytes, bad)
}

pub fn has_bad_escape(text: &[u8]) -> bool {
    count(text).1 > 0
}

/// The length that a limit is compared with; a `\` that begins no escape counts one here.
pub fn length(text: &[u8]) -> usize {
    count(text).0
}

#[cfg(test)]
mod tests {
    use super::*;

    #[test]
    fn each_escape_counts_one() {
        for (text, expected) in
            [("", 0), ("abc", 3), ("\\T\\", 1), ("a\\F\\\\S\\b", 4), ("\\E\\T", 2), ("R \\T\\ D \\T\\ K Care", 14)]
        {
            assert_eq!((length(text.as_bytes()), has_bad_escape(text.as_bytes())), (expected, false), "{}", text);
        }
        for (text, expected) in [("\\", 1), ("\\T", 2), ("\\F\\F\\", 3), ("\\X\\", 3), ("ab\\\\", 4), ("\\E\\\\", 2)] {
            assert_eq!((length(text.as_bytes()), has_bad_escape(text.as_bytes())), (expected, true), "{}", text);
        }
    }
}

//! Escapes resolved.

use second::{resolve, Refusal};

fn resolved(text: &str) -> Result<String, u8> {
    let mut buffer = [b'.'; 64];
    let length = resolve(text.as_bytes(), &mut buffer).map_err(Refusal::number)?;
    assert!(buffer[length..].iter().all(|&byte| byte == b'.'));
    Ok(String::from_utf8(buffer[..length].to_vec()).unwrap())
}

#[test]
fn the_five() {
    assert_eq!(resolved(r"\F\\S\\T\\R\\E\"), Ok(r"|^&~\".into()));
    assert_eq!(resolved(r"a\T\b\E\F\E\c"), Ok(r"a&b\F\c".into()));
    assert_eq!(resolved(""), Ok("".into()));
    assert_eq!(resolved("plain|^~&"), Ok("plain|^~&".into()));
}

#[test]
fn bad_escapes() {
    for bad in [
        r"\", r"a\", r"\\", r"\F", r"\X\", r"\f\", r"\FF\", r"\F\\", r"\F\F\", r"\E\\", r"\.br\",
        r"\ F\",
    ] {
        assert_eq!(resolved(bad), Err(20), "{:?}", bad);
    }
}

#[test]
fn room() {
    let mut buffer = *b"....";
    assert_eq!(resolve(br"ab\F\cd", &mut buffer), Err(Refusal::NoRoom));
    assert_eq!(resolve(br"abcdef\", &mut buffer), Err(Refusal::BadEscape));
    assert_eq!(&buffer, b"....");
    assert_eq!(resolve(br"a\F\cd", &mut buffer), Ok(4));
    assert_eq!(&buffer, b"a|cd");
    assert_eq!(resolve(b"", &mut []), Ok(0));
    assert_eq!(resolve(b"a", &mut []), Err(Refusal::NoRoom));
    // Any byte but `\` is plain, those beyond ASCII too.
    assert_eq!(resolve(b"\xFF\x00", &mut buffer), Ok(2));
    assert_eq!(&buffer, b"\xFF\x00cd");
}

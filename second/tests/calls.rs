//! Calls and answers as lines.

mod common;
use common::*;
use second::calls::{self, spell, unspell};

fn spelled(bytes: &[u8]) -> String {
    let mut out = Vec::new();
    spell(bytes, &mut out);
    String::from_utf8(out).unwrap()
}

#[test]
fn examples_of_the_page() {
    assert_eq!(answer(r"judge =MSH|^~\&|A"), "refused 5");
    assert_eq!(answer(r"resolve =a\F\b =......"), "written 3 =a|b...");
    assert_eq!(answer("read =%00*1023; 0 6"), "refused 18");
    assert_eq!(unspell(b"=x*9;"), Some(b"xxxxxxxxxx".to_vec()));
    assert_eq!(unspell(b"="), Some(Vec::new()));
}

#[test]
fn spelling() {
    assert_eq!(spelled(b""), "=");
    assert_eq!(spelled(b"a=b~!"), "=a=b~!");
    assert_eq!(spelled(b" %*\x00\x7F\xFF\r"), "=%20%25%2A%00%7F%FF%0D");
    assert_eq!(spelled(b"xxxxxxx"), "=xxxxxxx");
    assert_eq!(spelled(b"xxxxxxxx"), "=x*7;");
    assert_eq!(spelled(b"**********yy"), "=%2A*9;yy");
    assert_eq!(spelled(&[0; 1_024]), "=%00*1023;");
    let all: Vec<u8> = (0..=255)
        .chain((0..=255).flat_map(|byte| [byte; 8]))
        .collect();
    assert_eq!(unspell(spelled(&all).as_bytes()), Some(all));
}

#[test]
fn unspelling() {
    assert_eq!(unspell(b"=a*0;b*3;"), Some(b"abbbb".to_vec()));
    assert_eq!(unspell(b"=b*2;*1;"), None);
    assert_eq!(unspell(b"=b*00000000000000000002;"), Some(b"bbb".to_vec()));
    assert_eq!(unspell(b"=b*000000000000000000002;"), Some(b"bbb".to_vec()));
    assert_eq!(unspell(b"=b*18446744073709551616;"), None);
    assert_eq!(unspell(b"=%2A*003;"), Some(b"****".to_vec()));
    assert_eq!(unspell(b"=;"), Some(b";".to_vec()));
    assert_eq!(
        unspell(b"=x*131071;").map(|bytes| bytes.len()),
        Some(131_072)
    );
    for bad in [
        "",
        "x",
        "x=",
        "=%",
        "=%0",
        "=%0g",
        "=%0a",
        "=%aa",
        "=*1;",
        "=x*",
        "=x*1",
        "=x*;",
        "=x*-1;",
        "=x*+1;",
        "=x*1x;",
        "= ",
        "=x*131072;",
        "=x*18446744073709551615;",
        "=x*18446744073709551616;",
        "=\t",
        "=\r",
    ] {
        assert_eq!(unspell(bad.as_bytes()), None, "{:?}", bad);
    }
    assert_eq!(unspell(b"=\x7F"), None);
    assert_eq!(unspell(b"=\x80"), None);
}

#[test]
fn judge_and_look() {
    let m = spelled(&m());
    let bad = spelled(&m_with("OBX", 5, "3.1x"));
    assert_eq!(answer(&format!("judge {}", m)), "accepted");
    assert_eq!(
        answer(&format!("judge {}", bad)),
        "fault OBX 1 5 1 1 1 102 7"
    );
    assert_eq!(
        answer(&format!("look {} =MSH 1 9 1 2 1", m)),
        "text 50 53 =R01"
    );
    assert_eq!(answer(&format!("look {} =MSH 1 8 1 1 1", m)), "empty");
    assert_eq!(answer(&format!("look {} = 1 8 1 1 1", m)), "refused 9");
    assert_eq!(answer(&format!("look {} =NK1 1 8 1 1 1", m)), "refused 10");
}

#[test]
fn resolve_and_reply() {
    let m = spelled(&m());
    let room = "=.*3199;";
    assert_eq!(answer(r"resolve =\ =ab"), "refused 20 =ab");
    assert_eq!(answer(r"resolve =\F\x ="), "refused 14 =");
    let replied = answer(&format!("reply {} =20240305101501 =K1 {}", m, room));
    let start = r"written 79 =MSH|^~\&|DEPOT|D1|LABSYS|LAB1|20240305101501||ACK^R01^ACK|K1|P|2.5.1%0DMSA|AA|C7%0D.*3120;";
    assert_eq!(replied, start);
    assert_eq!(
        answer(&format!("reply {} =2024 =K1 =ab", m)),
        "refused 11 =ab"
    );
}

#[test]
fn file_and_read() {
    let m = spelled(&m());
    let slip = "=%01%00%02C7%02%00%03A55%04%00%02F9%05%00%0754089-8%06%00%02%00%01%00*992;";
    assert_eq!(
        answer(&format!("file {} 1 0 =%01*1023;", m)),
        format!("filed {}", slip)
    );
    assert_eq!(
        answer(&format!("file {} 1 1 =%01*1023;", m)),
        "refused 17 =%01*1023;"
    );
    assert_eq!(
        answer(&format!("file {} 1 18446744073709551615 =", m)),
        "refused 17 ="
    );
    assert_eq!(answer(&format!("read {} 0 2", slip)), "value 8 11 =A55");
    assert_eq!(answer(&format!("read {} 0 6", slip)), "value 29 31 =%00%01");
    assert_eq!(answer(&format!("read {} 0 3", slip)), "refused 19");
    assert_eq!(answer(&format!("read {} 1 3", slip)), "refused 17");
}

#[test]
fn no_calls() {
    for bad in [
        "",
        " ",
        "judge",
        "judge ",
        "judge  =",
        "judge = ",
        "judge = =",
        " judge =",
        "Judge =",
        "judge x",
        "strike =",
        "look = = 1 1 1 1",
        "look = = 1 1 1 1 1 1",
        "look = = 1 1 1 1 x",
        "look = = 1 1 1 1 ",
        "look = MSH 1 1 1 1 1",
        "look = = 1 1 1 1 -1",
        "look = = 1 1 1 1 +1",
        "read = 1",
        "read = = 1",
        "file = 1 =",
        "file = 1 1",
        "reply = = =",
        "resolve =",
        "resolve = = =",
        "judge =x*131072;",
        "judge =\r",
        "judge =\t",
    ] {
        assert_eq!(answer(bad), "no call", "{:?}", bad);
    }
}

#[test]
fn a_number_that_does_not_fit_is_asked_as_the_largest() {
    for large in [
        "18446744073709551615",
        "18446744073709551616",
        "100000000000000000000000",
    ] {
        assert_eq!(answer(&format!("read = {} 1", large)), "refused 17");
    }
}

#[test]
fn the_longest_line() {
    let line = |text: &str| format!("judge ={}{}", text, "%41*00000;".repeat(104_856));
    assert_eq!(line("xxxxxxxxx").len(), calls::MOST_LINE_BYTES);
    assert_eq!(answer(&line("xxxxxxxxx")), "refused 2");
    assert_eq!(answer(&line("xxxxxxxxxx")), "no call");
}

#[test]
fn answers_are_appended() {
    let mut out = b"before ".to_vec();
    calls::answer(b"judge =", &mut out);
    assert_eq!(out, b"before refused 1");
}

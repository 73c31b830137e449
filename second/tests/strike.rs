//! Striking out what the profile does not list.

mod common;
use common::*;
use second::strike;

/// What is left of a segment in a message whose frame holds.
fn struck(segment: &str) -> String {
    let message = message(&[r"MSH|^~\&|", segment]);
    let left = strike(&message).unwrap();
    assert_eq!(
        strike(&left),
        Some(left.clone()),
        "striking twice is striking once"
    );
    String::from_utf8(left[10..].to_vec()).unwrap()
}

#[test]
fn cases() {
    for (segment, left) in [
        // Unlisted segments go with their CR.
        ("ZZX|a\\b", ""),
        ("PV1", ""),
        // Separators stay, the trailing ones too.
        ("PID", "PID\r"),
        ("PID|", "PID|\r"),
        ("PID|1|x~y^z&|A|q|L", "PID|1||A||L\r"),
        ("PID|1^2&3~4&5^6", "PID|1^~4&^\r"),
        // Surplus repetitions are repetitions of a listed field.
        (
            "PID|||A^b^c^H&1&I&x&y^MR^f~~^x|",
            "PID|||A^^^H&1&I&&^MR^~~^|\r",
        ),
        ("PID|||A&b^c&d^e^H^MR&x", "PID|||A&^^^H^MR&\r"),
        ("PID|||A~A~A~A~A~A^B~C", "PID|||A~A~A~A~A~A^~C\r"),
        ("PID|||||L^J^Q^Jr^Dr^MD^L^x", "PID|||||L^J^Q^^^^L^\r"),
        ("NTE|1|L|a~b^c~d\\|e~f", "NTE|1|L|a~b^~d\\|\r"),
        (
            "OBR|1|a^b^c^d^e|F^x&y|A^B^C^D^E^F^G",
            "OBR|1|a^b^c^d^|F^x&|A^B^C^D^E^F^\r",
        ),
        // OBX-5 by the type that OBX-2's first repetition names.
        ("OBX|1|NM|A||1^2&3", "OBX|1|NM|A||1^\r"),
        ("OBX|1|CE|A||1^2&3^4^5^6^7^8", "OBX|1|CE|A||1^2&^4^5^6^7^\r"),
        ("OBX|1|SN|A||<^1^-^2^x~=^3&4", "OBX|1|SN|A||<^1^-^2^~=^3&\r"),
        ("OBX|1||A||1^2", "OBX|1||A||1^\r"),
        ("OBX|1|XX|A||1^2", "OBX|1|XX|A||1^\r"),
        ("OBX|1|~CE|A||1^2", "OBX|1|~CE|A||1^\r"),
        ("OBX|1|CE&x^y~NM|A||1^2", "OBX|1|CE&^~NM|A||1^2\r"),
        ("OBX|||||1^2", "OBX|||||1^\r"),
    ] {
        assert_eq!(struck(segment), left, "{:?}", segment);
    }
}

#[test]
fn the_header() {
    let header = r"MSH|^~\&|A^1^I^x|B&y|||2024^x|sec|ORU^R01^S^x|C7^x|P^x|2.5.1^x|13|14";
    let left = strike(&message(&[header])).unwrap();
    let expected = "MSH|^~\\&|A^1^I^|B&|||2024^||ORU^R01^S^|C7^|P^|2.5.1^||\r";
    assert_eq!(String::from_utf8(left).unwrap(), expected);
}

#[test]
fn bad_frames() {
    assert_eq!(strike(b""), None);
    assert_eq!(strike(b"MSH|^~\\&|"), None);
    assert_eq!(strike(&message(&[MSH, MSH])), None);
}

#[test]
fn m_is_all_listed() {
    assert_eq!(strike(&m()), Some(m()));
}

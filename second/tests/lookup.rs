//! Looking up.

mod common;
use common::*;
use second::{look_up, Asked, Found};

/// The text at a place as (start, text), or nothing.
fn at(message: &[u8], name: &str, numbers: [u64; 5]) -> Result<Option<(usize, String)>, u8> {
    let [occurrence, field, repetition, component, subcomponent] = numbers;
    let asked = Asked {
        occurrence,
        field,
        repetition,
        component,
        subcomponent,
    };
    match look_up(message, name.as_bytes(), &asked) {
        Ok(Found::Empty) => Ok(None),
        Ok(Found::Text(part)) => {
            let text = String::from_utf8(message[part.clone()].to_vec()).unwrap();
            Ok(Some((part.start, text)))
        }
        Err(refusal) => Err(refusal.number()),
    }
}

fn text(message: &[u8], name: &str, numbers: [u64; 5]) -> Option<String> {
    at(message, name, numbers).unwrap().map(|(_, text)| text)
}

#[test]
fn header_fields() {
    let m = m();
    assert_eq!(at(&m, "MSH", [1, 1, 1, 1, 1]), Ok(Some((3, "|".into()))));
    assert_eq!(
        at(&m, "MSH", [1, 2, 1, 1, 1]),
        Ok(Some((4, "^~\\&".into())))
    );
    assert_eq!(
        at(&m, "MSH", [1, 3, 1, 1, 1]),
        Ok(Some((9, "LABSYS".into())))
    );
    assert_eq!(text(&m, "MSH", [1, 9, 1, 2, 1]), Some("R01".into()));
    assert_eq!(text(&m, "MSH", [1, 10, 1, 1, 1]), Some("C7".into()));
    assert_eq!(text(&m, "MSH", [1, 12, 1, 1, 1]), Some("2.5.1".into()));
    for field in [1, 2] {
        for beyond in [
            [1, field, 2, 1, 1],
            [1, field, 1, 2, 1],
            [1, field, 1, 1, 2],
        ] {
            assert_eq!(text(&m, "MSH", beyond), None);
        }
    }
    for empty in [
        [1, 8, 1, 1, 1],
        [1, 13, 1, 1, 1],
        [1, 255, 1, 1, 1],
        [1, 3, 1, 1, 2],
    ] {
        assert_eq!(text(&m, "MSH", empty), None);
    }
}

#[test]
fn all_depths() {
    let message = message(&[MSH, "ZZX|a&b^c~d^e&f&|g", "ZZX", "ZZX||h|"]);
    let zzx = |numbers| text(&message, "ZZX", numbers);
    assert_eq!(zzx([1, 1, 1, 1, 1]), Some("a".into()));
    assert_eq!(zzx([1, 1, 1, 1, 2]), Some("b".into()));
    assert_eq!(zzx([1, 1, 1, 2, 1]), Some("c".into()));
    assert_eq!(zzx([1, 1, 2, 1, 1]), Some("d".into()));
    assert_eq!(zzx([1, 1, 2, 2, 1]), Some("e".into()));
    assert_eq!(zzx([1, 1, 2, 2, 2]), Some("f".into()));
    assert_eq!(zzx([1, 1, 2, 2, 3]), None);
    assert_eq!(zzx([1, 1, 3, 1, 1]), None);
    assert_eq!(zzx([1, 2, 1, 1, 1]), Some("g".into()));
    assert_eq!(zzx([2, 1, 1, 1, 1]), None);
    assert_eq!(zzx([3, 1, 1, 1, 1]), None);
    assert_eq!(zzx([3, 2, 1, 1, 1]), Some("h".into()));
    assert_eq!(zzx([3, 3, 1, 1, 1]), None);
    assert_eq!(zzx([3, 255, 65_535, 255, 255]), None);
    assert_eq!(at(&message, "ZZX", [4, 1, 1, 1, 1]), Err(10));
}

#[test]
fn bad_places() {
    let m = m();
    for name in ["", "PI", "PIDX", "pid", "1ID", "P|D"] {
        assert_eq!(at(&m, name, [1, 1, 1, 1, 1]), Err(9), "{:?}", name);
    }
    for bad in [
        [0, 1, 1, 1, 1],
        [513, 1, 1, 1, 1],
        [1, 0, 1, 1, 1],
        [1, 256, 1, 1, 1],
        [1, 1, 0, 1, 1],
        [1, 1, 65_536, 1, 1],
        [1, 1, 1, 0, 1],
        [1, 1, 1, 256, 1],
        [1, 1, 1, 1, 0],
        [1, 1, 1, 1, 256],
        [u64::MAX, 1, 1, 1, 1],
        [1, 1, u64::MAX, 1, 1],
    ] {
        assert_eq!(at(&m, "PID", bad), Err(9), "{:?}", bad);
        // Before it is asked whether there is such a segment.
        assert_eq!(at(&m, "ZZZ", bad), Err(9), "{:?}", bad);
    }
    assert_eq!(at(&m, "PID", [512, 255, 65_535, 255, 255]), Err(10));
    assert_eq!(at(&m, "NK1", [1, 1, 1, 1, 1]), Err(10));
    assert_eq!(at(b"", "pid", [0, 0, 0, 0, 0]), Err(1));
}

//! Slips filed and read back.

mod common;
use common::*;
use second::{file, read_slip, Refusal};

fn filed(message: &[u8], group: u64, slot: u64, book: &mut [u8]) -> Result<(), u8> {
    let before = book.to_vec();
    let result = file(message, group, slot, book).map_err(Refusal::number);
    if result.is_err() {
        assert_eq!(book, &before[..]);
    }
    result
}

fn value(book: &[u8], slot: u64, tag: u64) -> Result<Vec<u8>, u8> {
    let part = read_slip(book, slot, tag).map_err(Refusal::number)?;
    Ok(book[part].to_vec())
}

/// A book with the three groups of a message in its slots 3, 0 and 2.
fn three_groups() -> Vec<u8> {
    let second = r"OBR|2|P\T\2^x|F&2|C\S\2|||2024";
    let segments = [
        &[MSH, PID, NK1, "OBR|1||F1|C1|||2024", OBX, NTE, OBX][..],
        &[ORC, second, "ZZZ", "OBR|3||F3|C3|||2024", OBX, OBX, OBX],
    ];
    let message = message(&segments.concat());
    let mut book = vec![0xEE; 4 * 1_024 + 1_023];
    for (group, slot) in [(1, 3), (2, 0), (3, 2)] {
        assert_eq!(filed(&message, group, slot, &mut book), Ok(()));
    }
    book
}

#[test]
fn groups_read_back() {
    let book = three_groups();
    assert_eq!(value(&book, 3, 4), Ok(b"F1".to_vec()));
    assert_eq!(value(&book, 3, 3), Err(19));
    assert_eq!(value(&book, 3, 6), Ok(vec![0, 2]));
    assert_eq!(value(&book, 0, 1), Ok(b"C7".to_vec()));
    assert_eq!(value(&book, 0, 2), Ok(b"A55".to_vec()));
    assert_eq!(value(&book, 0, 3), Ok(b"P&2".to_vec()));
    assert_eq!(value(&book, 0, 4), Ok(b"F".to_vec()));
    assert_eq!(value(&book, 0, 5), Ok(b"C^2".to_vec()));
    assert_eq!(value(&book, 0, 6), Ok(vec![0, 0]));
    assert_eq!(value(&book, 2, 5), Ok(b"C3".to_vec()));
    assert_eq!(value(&book, 2, 6), Ok(vec![0, 3]));
    assert_eq!(value(&book, 1, 6), Err(18));
    assert_eq!(value(&book, 4, 6), Err(17));
    assert_eq!(read_slip(&book, 3, 1), Ok(3_075..3_077));
}

#[test]
fn other_slots_and_tags() {
    let book = three_groups();
    let mut others = book[1_024..2_048].iter().chain(&book[4_096..]);
    assert!(others.all(|&byte| byte == 0xEE));
    for tag in [0, 7, 8, 256 + 6, u64::MAX] {
        assert_eq!(value(&book, 0, tag), Err(19));
        assert_eq!(value(&book, 3, tag), Err(19));
    }
}

#[test]
fn refusals_in_order() {
    let bad = m_with("OBX", 5, "x");
    let mut book = vec![0; 2_048];
    assert_eq!(filed(b"x", 0, 9, &mut book), Err(4));
    assert_eq!(filed(&bad, 0, 9, &mut book), Err(15));
    assert_eq!(filed(&m(), 0, 9, &mut book), Err(16));
    assert_eq!(filed(&m(), 2, 9, &mut book), Err(16));
    assert_eq!(filed(&m(), u64::MAX, 0, &mut book), Err(16));
    for slot in [2, 3, 1 << 54, (1 << 54) + 1, u64::MAX] {
        assert_eq!(filed(&m(), 1, slot, &mut book), Err(17));
        assert_eq!(value(&book, slot, 0), Err(17));
    }
    assert_eq!(filed(&m(), 1, 0, &mut book[..1_023]), Err(17));
    assert_eq!(filed(&m(), 1, 0, &mut []), Err(17));
    assert_eq!(filed(&m(), 1, 1, &mut book), Ok(()));
}

#[test]
fn the_first_repetition_and_the_longest_values() {
    let long = "x".repeat(199);
    let message = message(&[
        &set(MSH, 10, r"\F\\S\\T\\R\\E\12345"),
        &set(PID, 3, &format!("{}~B", long)),
        &format!("OBR|1|{}|{}|{}|||2024", long, long, long),
    ]);
    let mut book = vec![1; 1_024];
    assert_eq!(filed(&message, 1, 0, &mut book), Ok(()));
    assert_eq!(value(&book, 0, 1), Ok(br"|^&~\12345".to_vec()));
    for tag in 2..=5 {
        assert_eq!(value(&book, 0, tag).unwrap().len(), 199);
    }
    assert_eq!(value(&book, 0, 6), Ok(vec![0, 0]));
}

#[test]
fn the_greatest_count() {
    let mut segments = vec![MSH, PID, OBR];
    segments.resize(512, OBX);
    let mut book = vec![0; 1_024];
    assert_eq!(filed(&message(&segments), 1, 0, &mut book), Ok(()));
    assert_eq!(value(&book, 0, 6), Ok(vec![1, 0xFD]));
}

/// A slot with these tagged values, the rest zero.
fn slot(values: &[(u8, &[u8])]) -> Vec<u8> {
    let mut slot = Vec::new();
    for (tag, value) in values {
        slot.push(*tag);
        slot.extend_from_slice(&(value.len() as u16).to_be_bytes());
        slot.extend_from_slice(value);
    }
    slot.resize(1_024, 0);
    slot
}

type Values = &'static [(u8, &'static [u8])];

const GOOD: [Values; 3] = [
    &[(1, b"1"), (2, b"2"), (4, b"4"), (5, b"5"), (6, &[0, 0])],
    &[
        (1, &[b'~'; 20]),
        (2, &[b'~'; 199]),
        (3, &[b'~'; 199]),
        (4, &[b'~'; 199]),
        (5, &[b'~'; 199]),
        (6, &[1, 0xFD]),
    ],
    &[
        (1, b" "),
        (2, b"~"),
        (3, b"3"),
        (4, b"4"),
        (5, b"\\"),
        (6, &[0, 255]),
    ],
];

const BAD: [Values; 18] = [
    &[],
    &[(1, b""), (2, b"2"), (4, b"4"), (5, b"5"), (6, &[0, 0])],
    &[
        (1, &[b'~'; 21]),
        (2, b"2"),
        (4, b"4"),
        (5, b"5"),
        (6, &[0, 0]),
    ],
    &[
        (1, b"1"),
        (2, &[b'~'; 200]),
        (4, b"4"),
        (5, b"5"),
        (6, &[0, 0]),
    ],
    &[
        (1, b"1"),
        (2, b"2"),
        (3, &[b'~'; 200]),
        (4, b"4"),
        (5, b"5"),
        (6, &[0, 0]),
    ],
    &[
        (1, b"1"),
        (2, b"2"),
        (3, b""),
        (4, b"4"),
        (5, b"5"),
        (6, &[0, 0]),
    ],
    &[
        (1, b"1"),
        (2, b"2"),
        (4, &[b'~'; 200]),
        (5, b"5"),
        (6, &[0, 0]),
    ],
    &[
        (1, b"1"),
        (2, b"2"),
        (4, b"4"),
        (5, &[b'~'; 200]),
        (6, &[0, 0]),
    ],
    &[(1, b"1\r"), (2, b"2"), (4, b"4"), (5, b"5"), (6, &[0, 0])],
    &[(1, b"1"), (2, b"\x7F"), (4, b"4"), (5, b"5"), (6, &[0, 0])],
    &[(2, b"2"), (4, b"4"), (5, b"5"), (6, &[0, 0])],
    &[(1, b"1"), (2, b"2"), (5, b"5"), (6, &[0, 0])],
    &[
        (1, b"1"),
        (2, b"2"),
        (4, b"4"),
        (3, b"3"),
        (5, b"5"),
        (6, &[0, 0]),
    ],
    &[(1, b"1"), (2, b"2"), (4, b"4"), (5, b"5")],
    &[(1, b"1"), (2, b"2"), (4, b"4"), (5, b"5"), (6, &[1, 0xFE])],
    &[(1, b"1"), (2, b"2"), (4, b"4"), (5, b"5"), (6, &[0])],
    &[(1, b"1"), (2, b"2"), (4, b"4"), (5, b"5"), (6, &[0, 0, 0])],
    &[
        (1, b"1"),
        (2, b"2"),
        (4, b"4"),
        (5, b"5"),
        (6, &[0, 0]),
        (7, b"7"),
    ],
];

#[test]
fn what_is_a_slip() {
    for values in GOOD {
        for (tag, text) in values {
            assert_eq!(value(&slot(values), 0, u64::from(*tag)), Ok(text.to_vec()));
        }
    }
}

#[test]
fn what_is_no_slip() {
    for values in BAD {
        for tag in [0, 1, 3, 6] {
            assert_eq!(value(&slot(values), 0, tag), Err(18), "{:?}", values);
        }
    }
    let mut trailing = slot(GOOD[0]);
    trailing[1_023] = 1;
    assert_eq!(value(&trailing, 0, 1), Err(18));
    let mut huge = slot(GOOD[0]);
    huge[1] = 0xFF;
    assert_eq!(value(&huge, 0, 1), Err(18));
}

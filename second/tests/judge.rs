//! The first fault: each reason, and which of several comes first.

mod common;
use common::*;

/// M with one field set is faulty in this way.
fn faulty(name: &str, field: usize, value: &str, fault: &str) {
    let expected = format!("fault {}", fault);
    assert_eq!(
        line(&m_with(name, field, value)),
        expected,
        "{}-{} {:?}",
        name,
        field,
        value
    );
}

fn good(name: &str, field: usize, value: &str) {
    assert_eq!(
        line(&m_with(name, field, value)),
        "accepted",
        "{}-{} {:?}",
        name,
        field,
        value
    );
}

#[test]
fn reason_1_succession() {
    for good in [
        &[MSH, PID, OBR][..],
        &[
            MSH, PID, NK1, NK1, ORC, OBR, NTE, NTE, OBX, NTE, OBX, ORC, OBR, OBR, OBX,
        ],
        &[MSH, "ZZZ", PID, "ZZZ", OBR, "ZZZ"],
    ] {
        assert_eq!(line(&message(good)), "accepted");
    }
    for (bad, fault) in [
        (&[MSH, NK1, PID, OBR][..], "NK1 1"),
        (&[MSH, PID, PID, OBR], "PID 2"),
        (&[MSH, PID, OBX], "OBX 1"),
        (&[MSH, PID, NTE, OBR], "NTE 1"),
        (&[MSH, PID, NK1, OBX], "OBX 1"),
        (&[MSH, PID, ORC, ORC, OBR], "ORC 2"),
        (&[MSH, PID, ORC, NTE], "NTE 1"),
        (&[MSH, PID, OBR, NK1], "NK1 1"),
        (&[MSH, PID, OBR, OBX, PID], "PID 2"),
        (&[MSH, PID, NK1, "ZZZ", OBR, NTE, NK1], "NK1 2"),
        // Out of place comes before what is in the segment.
        (&[MSH, PID, "OBX"], "OBX 1"),
    ] {
        assert_eq!(
            line(&message(bad)),
            format!("fault {} 0 0 0 0 100 1", fault)
        );
    }
}

#[test]
fn reason_2_the_end() {
    for (bad, fault) in [
        (&[MSH][..], "MSH 1"),
        (&[MSH, PID, NK1, NK1], "NK1 2"),
        (&[MSH, PID, OBR, ORC], "ORC 1"),
        (&[MSH, PID, "ZZZ"], "PID 1"),
    ] {
        assert_eq!(
            line(&message(bad)),
            format!("fault {} 0 0 0 0 100 2", fault)
        );
    }
    // It comes last.
    assert_eq!(line(&message(&[MSH, "PID"])), "fault PID 1 3 1 0 0 101 3");
}

#[test]
fn reason_3_missing_fields() {
    for (name, fields) in [
        ("MSH", &[4, 7, 9, 10, 11, 12][..]),
        ("PID", &[3, 5, 7]),
        ("OBR", &[1, 3, 4, 7]),
        ("OBX", &[1, 2, 3, 11]),
    ] {
        for &field in fields {
            faulty(
                name,
                field,
                "",
                &format!("{} 1 {} 1 0 0 101 3", name, field),
            );
        }
    }
    for (segment, fault) in [
        ("NK1", "NK1 1 1"),
        ("NK1|1", "NK1 1 3"),
        ("ORC", "ORC 1 1"),
        ("ORC||x", "ORC 1 1"),
    ] {
        let message = message(&[MSH, PID, segment, OBR]);
        assert_eq!(line(&message), format!("fault {} 1 0 0 101 3", fault));
    }
    // Filled is by listed leaves only, and by the first repetition.
    faulty("PID", 7, "^x", "PID 1 7 1 0 0 101 3");
    faulty("PID", 3, "~A", "PID 1 3 1 0 0 101 3");
    faulty("PID", 3, "^x^y~A", "PID 1 3 1 0 0 101 3");
    faulty("PID", 3, "&x", "PID 1 3 1 0 0 101 3");
    faulty("PID", 5, "^^^x^y^z", "PID 1 5 1 0 0 101 3");
    faulty("OBR", 1, "^", "OBR 1 1 1 0 0 101 3");
    good("PID", 5, "^^^^^^L");
    good("PID", 3, "A~~^^x");
}

#[test]
fn reason_3_missing_leaves() {
    faulty("PID", 3, "^^^H", "PID 1 3 1 1 1 101 3");
    faulty("PID", 3, "A~^^^&1.2", "PID 1 3 2 1 1 101 3");
    faulty("MSH", 9, "ORU", "MSH 1 9 1 2 1 101 3");
    faulty("MSH", 9, "ORU^&x^S", "MSH 1 9 1 2 1 101 3");
    faulty("MSH", 9, "^^S", "MSH 1 9 1 1 1 101 3");
    faulty("MSH", 9, "^BAD", "MSH 1 9 1 1 1 101 3");
    faulty("MSH", 9, "BAD^", "MSH 1 9 1 1 1 200 9");
    faulty("OBR", 2, "^H", "OBR 1 2 1 1 1 101 3");
    // The Empty leaf comes before the fault of the leaf that fills.
    faulty("OBR", 4, r"^a\b", "OBR 1 4 1 1 1 101 3");
    good("OBR", 2, "^^^^x");
}

#[test]
fn the_condition_of_obx_2() {
    good("OBX", 5, "");
    for (two, five, expected) in [
        ("", "", "accepted"),
        ("", "^x", "accepted"),
        ("", "&x", "accepted"),
        ("^NM", "", "accepted"),
        ("", "1", "fault OBX 1 2 1 0 0 101 3"),
        ("^NM", "1", "fault OBX 1 2 1 0 0 101 3"),
        ("&NM", "1^x", "fault OBX 1 2 1 0 0 101 3"),
        ("", "1~2", "fault OBX 1 2 1 0 0 101 3"),
        ("~NM", "1", "fault OBX 1 2 2 0 0 102 4"),
        ("NM", "", "accepted"),
        ("", "~1", "fault OBX 1 5 2 0 0 102 4"),
        ("XX", "1", "fault OBX 1 2 1 1 1 103 8"),
        ("NM&x^y", "1x", "fault OBX 1 5 1 1 1 102 7"),
    ] {
        let obx = set(&set(OBX, 2, two), 5, five);
        assert_eq!(line(&m_with_obx(&obx)), expected, "{:?} {:?}", two, five);
    }
    // OBX-2 comes before OBX-3.
    let obx = "OBX|1||||1";
    assert_eq!(line(&m_with_obx(obx)), "fault OBX 1 2 1 0 0 101 3");
}

#[test]
fn the_types_of_obx_5() {
    for (two, five, expected) in [
        ("CE", "A^B^C^D^E^F", "accepted"),
        ("CE", "^B", "fault OBX 1 5 1 1 1 101 3"),
        (
            "CE",
            "A^^123456789012345678901",
            "fault OBX 1 5 1 3 1 102 5",
        ),
        ("CE", r"A^^^^^\X\", "fault OBX 1 5 1 6 1 102 6"),
        ("DTM", "20240301", "accepted"),
        ("DTM", "2024030", "fault OBX 1 5 1 1 1 102 7"),
        ("TM", "1230", "accepted"),
        ("TM", "2430", "fault OBX 1 5 1 1 1 102 7"),
        ("NM", "12345678901234567", "fault OBX 1 5 1 1 1 102 5"),
        ("SN", "<^10^-^20", "accepted"),
        ("SN", "^10", "accepted"),
        ("SN", "<^x", "fault OBX 1 5 1 2 1 102 7"),
        ("SN", "<^1^-^2.", "fault OBX 1 5 1 4 1 102 7"),
        ("ST", "x^\\", "accepted"),
        ("NM", "1~2", "fault OBX 1 5 2 0 0 102 4"),
    ] {
        let obx = set(&set(OBX, 2, two), 5, five);
        assert_eq!(line(&m_with_obx(&obx)), expected, "{:?} {:?}", two, five);
    }
    for (two, limit) in [("ST", 199), ("TX", 4_096), ("FT", 4_096)] {
        let obx = |length| set(&set(OBX, 2, two), 5, &"x".repeat(length));
        assert_eq!(line(&m_with_obx(&obx(limit))), "accepted");
        assert_eq!(
            line(&m_with_obx(&obx(limit + 1))),
            "fault OBX 1 5 1 1 1 102 5"
        );
    }
}

#[test]
fn reason_4_before_all_else_in_a_field() {
    faulty("PID", 1, "1~2", "PID 1 1 2 0 0 102 4");
    faulty("PID", 1, "~", "PID 1 1 2 0 0 102 4");
    faulty("PID", 1, "x~x~x", "PID 1 1 2 0 0 102 4");
    faulty("PID", 3, "~~~~~", "PID 1 3 6 0 0 102 4");
    faulty("PID", 3, "^^^H~~~~~", "PID 1 3 6 0 0 102 4");
    faulty("PID", 5, r"\~A~B", "PID 1 5 3 0 0 102 4");
    faulty("OBX", 8, "A~B~C~D~E~F", "OBX 1 8 6 0 0 102 4");
    good("OBX", 8, "A~B~C~D~E");
    good("PID", 5, "A~^B");
    // But after an earlier field, and an unlisted field may repeat.
    let pid = set(&set(PID, 1, "x"), 3, "A~A~A~A~A~A");
    assert_eq!(
        line(&message(&[MSH, &pid, OBR])),
        "fault PID 1 1 1 1 1 102 7"
    );
    good("PID", 2, "A~B");
    let notes = |count: usize| set(NTE, 3, &vec!["x"; count].join("~"));
    assert_eq!(line(&message(&[MSH, PID, OBR, &notes(8)])), "accepted");
    assert_eq!(
        line(&message(&[MSH, PID, OBR, &notes(9)])),
        "fault NTE 1 3 9 0 0 102 4"
    );
}

#[test]
fn reasons_6_5_and_7_in_order() {
    faulty("PID", 1, "12345", "PID 1 1 1 1 1 102 5");
    good("PID", 1, "1234");
    good("PID", 1, "1234&5^6");
    faulty("PID", 1, "abcde", "PID 1 1 1 1 1 102 5");
    faulty("PID", 1, r"\x", "PID 1 1 1 1 1 102 6");
    faulty("PID", 1, r"\F\", "PID 1 1 1 1 1 102 7");
    faulty("OBX", 2, "LONG", "OBX 1 2 1 1 1 102 5");
    faulty("OBX", 2, r"\F\", "OBX 1 2 1 1 1 103 8");
    faulty("OBX", 2, "nm", "OBX 1 2 1 1 1 103 8");
    faulty("MSH", 9, r"\F^R01", "MSH 1 9 1 1 1 102 6");
    faulty("MSH", 10, &"C".repeat(21), "MSH 1 10 1 1 1 102 5");
    good("MSH", 10, &"C".repeat(20));
    faulty("MSH", 4, &"L".repeat(21), "MSH 1 4 1 1 1 102 5");
    faulty(
        "MSH",
        3,
        &format!("A^{}", "b".repeat(200)),
        "MSH 1 3 1 2 1 102 5",
    );
    good(
        "MSH",
        3,
        &format!("A^{}^{}", "b".repeat(199), "c".repeat(20)),
    );
    faulty("OBX", 7, &"7".repeat(61), "OBX 1 7 1 1 1 102 5");
    good("OBX", 7, &"7".repeat(60));
    good("OBX", 14, "20240101");
    faulty("OBX", 14, "20241301", "OBX 1 14 1 1 1 102 7");
    faulty("PID", 25, "x", "PID 1 25 1 1 1 102 7");
    // Resolved bytes count, not written ones.
    good("MSH", 10, &r"\F\".repeat(20));
    faulty("MSH", 10, &r"\F\".repeat(21), "MSH 1 10 1 1 1 102 5");
    // So a bad escape comes before a text that is too long.
    faulty("PID", 1, r"1234\x", "PID 1 1 1 1 1 102 6");
    faulty("PID", 1, r"\12345", "PID 1 1 1 1 1 102 6");
}

#[test]
fn unlisted_parts_are_never_judged() {
    good("PID", 2, r"\");
    good("PID", 3, r"A^\^\^H^MR^\");
    good("PID", 3, r"A&\^x");
}

#[test]
fn the_subcomponents_of_cx_4() {
    good("PID", 3, "A^^^H&1.2.3&ISO&unlisted\\^MR");
    let long = "x".repeat(200);
    faulty(
        "PID",
        3,
        &format!("A^^^{}", &long[..21]),
        "PID 1 3 1 4 1 102 5",
    );
    faulty("PID", 3, &format!("A^^^&{}", long), "PID 1 3 1 4 2 102 5");
    good("PID", 3, &format!("A^^^&{}", &long[..199]));
    faulty(
        "PID",
        3,
        &format!("A^^^&&{}", &long[..21]),
        "PID 1 3 1 4 3 102 5",
    );
    faulty(
        "PID",
        3,
        &format!("A^^^&^{}", &long[..21]),
        "PID 1 3 1 5 1 102 5",
    );
    faulty("PID", 3, r"A~B^^^&\&\", "PID 1 3 2 4 2 102 6");
}

#[test]
fn reasons_8_to_12_lists() {
    for (name, field, values) in [
        ("PID", 8, "A F M N O U"),
        ("PID", 24, "Y N"),
        ("OBR", 25, "A C F I O P R S X Y Z"),
        ("OBX", 11, "C D F I N O P R S U W X"),
    ] {
        for letter in b'A'..=b'Z' {
            let value = (letter as char).to_string();
            if values.split(' ').any(|listed| listed == value) {
                good(name, field, &value);
            } else {
                let fault = format!("{} 1 {} 1 1 1 103 8", name, field);
                faulty(name, field, &value, &fault);
            }
        }
        faulty(
            name,
            field,
            "NN",
            &format!("{} 1 {} 1 1 1 103 8", name, field),
        );
    }
    faulty("MSH", 9, "ORM^R01", "MSH 1 9 1 1 1 200 9");
    faulty("MSH", 9, "ORU^R02", "MSH 1 9 1 2 1 201 10");
    faulty("MSH", 11, "X", "MSH 1 11 1 1 1 202 11");
    faulty("MSH", 12, "2.5", "MSH 1 12 1 1 1 203 12");
    for letter in ["D", "P", "T"] {
        good("MSH", 11, letter);
    }
    let bad = message(&[MSH, PID, "ORC|NW", OBR]);
    assert_eq!(line(&bad), "fault ORC 1 1 1 1 1 103 8");
}

#[test]
fn occurrences_count_by_name() {
    let first = message(&[MSH, PID, "OBA", OBR, OBX, NTE, OBX, "OBX", OBR]);
    assert_eq!(line(&first), "fault OBX 3 1 1 0 0 101 3");
    let bad = set(OBX, 11, "?");
    let second = message(&[MSH, PID, OBR, OBX, OBR, NTE, OBX, "ZOB|1", &bad]);
    assert_eq!(line(&second), "fault OBX 3 11 1 1 1 103 8");
}

#[test]
fn refusals_come_first() {
    assert_eq!(line(b""), "refused 1");
    assert_eq!(line(&message(&[MSH, PID, "bad"])), "refused 6");
}

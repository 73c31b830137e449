//! The worked messages of document 01.

mod common;
use common::*;

#[test]
fn p1_m_is_accepted() {
    assert_eq!(line(&m()), "accepted");
}

#[test]
fn p2_a_value_not_of_its_type() {
    assert_eq!(line(&m_with("OBX", 5, "3.1x")), "fault OBX 1 5 1 1 1 102 7");
}

#[test]
fn p3_the_slip_of_m() {
    let mut expected = vec![
        0x01, 0x00, 0x02, 0x43, 0x37, 0x02, 0x00, 0x03, 0x41, 0x35, 0x35, 0x04, 0x00, 0x02, 0x46,
        0x39, 0x05, 0x00, 0x07, 0x35, 0x34, 0x30, 0x38, 0x39, 0x2D, 0x38, 0x06, 0x00, 0x02, 0x00,
        0x01,
    ];
    expected.extend([0; 993]);
    assert_eq!(expected.len(), 1_024);
    let mut book = vec![0xFF; 1_024];
    assert_eq!(second::file(&m(), 1, 0, &mut book), Ok(()));
    assert_eq!(book, expected);
}

#[test]
fn p4_the_reply_to_p2() {
    let expected = "MSH|^~\\&|DEPOT|D1|LABSYS|LAB1|20240305101501||ACK^R01^ACK|K1|P|2.5.1\n\
                    MSA|AE|C7\n\
                    ERR||OBX^1^5^1^1^1|102^Data type error^HL70357|E\n";
    assert_eq!(reply(&m_with("OBX", 5, "3.1x")), Ok(expected.to_string()));
}

#[test]
fn p5_an_unlisted_segment_is_passed_over() {
    assert_eq!(
        line(&message(&[MSH, PID, r"ZZX|a\b", OBR, OBX])),
        "accepted"
    );
}

#[test]
fn p6_an_unlisted_component_is_not_judged() {
    assert_eq!(line(&m_with("OBX", 5, "3.16^x")), "accepted");
}

#[test]
fn p7_no_pid() {
    let message = message(&[MSH, OBR, OBX]);
    assert_eq!(line(&message), "fault OBR 1 0 0 0 0 100 1");
}

#[test]
fn p8_no_control_number() {
    let message = m_with("MSH", 10, "");
    assert_eq!(line(&message), "fault MSH 1 10 1 0 0 101 3");
    assert_eq!(reply(&message), Err(13));
}

#[test]
fn p9_the_last_cr_cut_off() {
    let message = m();
    assert_eq!(line(&message[..message.len() - 1]), "refused 5");
}

#[test]
fn p10_the_end_after_pid() {
    assert_eq!(line(&message(&[MSH, PID])), "fault PID 1 0 0 0 0 100 2");
}

#[test]
fn p11_six_repetitions_of_pid_3() {
    let message = m_with("PID", 3, "A~A~A~A~A~A");
    assert_eq!(line(&message), "fault PID 1 3 6 0 0 102 4");
    assert_eq!(line(&m_with("PID", 3, "A~A~A~A~A")), "accepted");
}

#[test]
fn p12_the_limit_of_obx_4() {
    assert_eq!(line(&m_with("OBX", 4, &"x".repeat(20))), "accepted");
    let message = m_with("OBX", 4, &"x".repeat(21));
    assert_eq!(line(&message), "fault OBX 1 4 1 1 1 102 5");
}

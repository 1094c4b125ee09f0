//! Places, order and limits of the readers.

mod common;

use common::*;
use second::hex::from_hex;
use second::methods::METHODS;
use second::reply::{read_reply, Reply};
use second::request::{read_request, Request};
use second::value::Value;

#[test]
fn headers_are_whole_from_five_bytes_on() {
    for length in 0..5 {
        let cut = &from_hex("0000000117")[..length];
        assert_eq!(request_known(cut), None);
        assert_eq!(request_refusal(&second::hex::to_hex(cut)), (1, 0));
        assert_eq!(reply_refusal(&second::hex::to_hex(cut)), (1, 0));
    }
    assert_eq!(request_known(&from_hex("0000000117")), Some(5));
}

#[test]
fn oversize_comes_before_unexpected_types() {
    let mut message = from_hex("00000001 42");
    assert_eq!(reply_refusal("00000001 42"), (3, 4));
    message.resize(65_536, 0);
    assert_eq!(request_known(&message), Some(5));
    message.push(0);
    let Reply::Refused(refusal) = read_reply(&message) else { panic!() };
    assert_eq!((refusal.number, refusal.place), (2, 0));
}

#[test]
fn all_types() {
    for kind in 0..=255u8 {
        let message = [0, 0, 0, 1, kind];
        let known_request = (0x01..=0x17).contains(&kind);
        match read_request(&message) {
            Request::Unknown { id: 1, kind: shown, known: 5 } => {
                assert!(!known_request && shown == kind)
            }
            Request::Known { method, .. } => assert!(kind == 0x17 && method.name == "getcreds"),
            Request::Refused(refusal) => {
                assert!(known_request && (refusal.number, refusal.place) == (4, 5))
            }
            other => panic!("{other:?}"),
        }
        match read_reply(&message) {
            Reply::UnknownResponse { id: 1, known: 5 } => assert_eq!(kind, 0x80),
            Reply::Refused(refusal) if (0x81..=0x97).contains(&kind) => {
                assert_eq!((refusal.number, refusal.place), (4, 5))
            }
            Reply::Refused(refusal) => assert_eq!((refusal.number, refusal.place), (3, 4)),
            other => panic!("{other:?}"),
        }
    }
}

#[test]
fn the_table_is_in_order() {
    for (index, method) in METHODS.iter().enumerate() {
        assert_eq!(usize::from(method.number), index + 1);
        assert_eq!(usize::from(method.reply_number()), index + 0x81);
    }
}

#[test]
fn fields_are_checked_one_after_the_other() {
    // A bad first text and a short second one.
    assert_eq!(request_refusal("00000001 04 00000001 80 00000009"), (5, 9));
    // A short text whose bytes are already bad.
    assert_eq!(request_refusal("00000001 0f 00000002 80"), (4, 9));
    // A character that only the next byte would complete.
    assert_eq!(request_refusal("00000001 01 00000001 c3 a9"), (5, 9));
    // A bad name before a short one.
    assert_eq!(reply_refusal("00000001 93 00000000 00000002 00000001 ff 00000001"), (5, 17));
    assert_eq!(reply_refusal("00000001 93 00000000 00000002 00000001 61"), (4, 18));
}

#[test]
fn members_have_places_of_their_own() {
    let utimens = "00000001 16 00000000 0000000000000001";
    assert_eq!(request_refusal(utimens), (4, 17));
    assert_eq!(request_refusal(&format!("{utimens} 000000")), (4, 17));
    assert_eq!(request_refusal(&format!("{utimens} 00000000")), (4, 21));
    assert_eq!(reply_refusal("00000001 95 00000000 0000000000000001"), (4, 17));
}

#[test]
fn lengths_do_not_wrap() {
    for length in ["ffffffff", "7fffffff", "80000000", "fffffff7", "fffffff8", "00000002"] {
        assert_eq!(request_refusal(&format!("00000001 0f {length} 61")), (4, 9));
    }
    for count in ["ffffffff", "40000000", "40000001", "00000002"] {
        assert_eq!(reply_refusal(&format!("00000001 93 00000000 {count} 00000000")), (4, 17));
    }
}

#[test]
fn counts_below_the_names_leave_bytes_behind() {
    assert_eq!(reply_known(&from_hex("00000001 93 00000000 00000000 00000000")), Some(13));
    let mut many = from_hex("00000001 93 00000000 00003ffc");
    many.resize(65_533, 0);
    assert_eq!(reply_known(&many), Some(65_533));
}

#[test]
fn nothing_behind_a_negative_result_counts() {
    for tail in ["", "ffffffffff", "0000000161"] {
        let message = from_hex(&format!("00000001 90 80000000 {tail}"));
        let wanted = Reply::Failure { id: 1, kind: 0x90, result: i32::MIN, known: 9 };
        assert_eq!(read_reply(&message), wanted);
    }
}

#[test]
fn the_data_length_waits_for_whole_data() {
    assert_eq!(reply_refusal("00000001 90 00000002 ffffffff 61"), (4, 13));
    assert_eq!(reply_refusal("00000001 90 7fffffff 00000001 61"), (6, 5));
    assert_eq!(reply_refusal("00000001 90 00000000 00000001 61"), (6, 5));
    assert_eq!(reply_known(&from_hex("00000001 90 00000000 00000000")), Some(13));
    // The comparison is for read alone.
    assert_eq!(reply_known(&from_hex("00000001 91 00000009")), Some(9));
}

#[test]
fn getcreds_has_no_result() {
    assert_eq!(reply_refusal("00000001 97 ffffffea"), (4, 9));
    assert_eq!(reply_known(&from_hex("00000001 97 00000001 61")), Some(10));
}

#[test]
fn a_positive_result_is_a_success_of_every_method() {
    assert_eq!(reply_refusal("00000001 82 00000007"), (4, 9));
    assert_eq!(reply_known(&from_hex("00000001 81 00000007")), Some(9));
}

#[test]
fn signs_of_modes_and_flags() {
    let first = |text: &str| match read_request(&from_hex(text)) {
        Request::Known { values, .. } => format!("{:?}", values[1]),
        other => panic!("{other:?}"),
    };
    assert_eq!(first("00000001 01 00000000 80"), "Signed(-128)");
    assert_eq!(first("00000001 07 00000000 ffffffff"), "Unsigned(4294967295)");
    assert_eq!(first("00000001 0b 00000000 80000000"), "Signed(-2147483648)");
    assert_eq!(first("00000001 0a 00000000 fe ffffffffffffffff"), "Bool(true)");
    let message = from_hex("00000001 06 00000000 00000000 ff");
    let Request::Known { values, .. } = read_request(&message) else { panic!() };
    assert_eq!(values[2], Value::Unsigned(255));
}

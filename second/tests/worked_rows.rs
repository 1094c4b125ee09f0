//! Every worked row of document 01.

mod common;

use common::*;
use second::front::{front, Front};
use second::hex::from_hex;
use second::reply::{read_reply, reply_part, Reply};
use second::request::{read_request, request_part, Request};
use second::value::{Part, Value};

#[test]
fn empty_request_is_a_truncated_header() {
    assert_eq!(request_refusal(""), (1, 0));
}

#[test]
fn getattr_of_the_root() {
    for text in ["00000001 02 00000001 2f", "00000001 02 00000001 2f ff"] {
        let message = from_hex(text);
        let path = Value::Part(Part { start: 9, bytes: b"/" });
        let wanted =
            Request::Known { id: 1, method: method("getattr"), values: vec![path], known: 10 };
        assert_eq!(read_request(&message), wanted);
        assert_eq!(request_part(&message, "path"), b"/");
    }
}

#[test]
fn getattr_with_a_short_path() {
    assert_eq!(request_refusal("00000001 02 00000002 2f"), (4, 9));
}

#[test]
fn getattr_failure_and_short_success() {
    let message = from_hex("00000001 82 fffffffe");
    let wanted = Reply::Failure { id: 1, kind: 0x82, result: -2, known: 9 };
    assert_eq!(read_reply(&message), wanted);
    assert_eq!(reply_refusal("00000001 82 00000000"), (4, 9));
}

#[test]
fn unknown_request_and_its_answer() {
    let message = from_hex("00000023 42");
    assert_eq!(read_request(&message), Request::Unknown { id: 0x23, kind: 0x42, known: 5 });
    let mut buffer = [0xaa; 7];
    assert_eq!(front(&message, &mut buffer), Front::Stored(5));
    assert_eq!(buffer[..], from_hex("00000023 80 aaaa"));
}

#[test]
fn bad_text_and_its_answer() {
    let text = "00000005 0f 00000001 80";
    assert_eq!(request_refusal(text), (5, 9));
    let mut buffer = [0xaa; 10];
    assert_eq!(front(&from_hex(text), &mut buffer), Front::Stored(9));
    assert_eq!(buffer[..], from_hex("00000005 8f ffffffea aa"));
}

#[test]
fn read_replies_and_their_data_length() {
    assert_eq!(reply_refusal("00000009 90 00000002 00000001 61"), (6, 5));
    let message = from_hex("00000009 90 00000001 00000001 61");
    assert_eq!(reply_part(&message, "data"), b"a");
    assert_eq!(reply_known(&message), Some(14));
}

#[test]
fn readdir_with_a_lying_count() {
    assert_eq!(reply_refusal("00000002 93 00000000 ffffffff"), (4, 13));
}

#[test]
fn access_with_mode_minus_one() {
    let message = from_hex("00000007 01 00000000 ff");
    let Request::Known { values, known, .. } = read_request(&message) else { panic!() };
    assert_eq!(values[1], Value::Signed(-1));
    assert_eq!(known, 10);
}

#[test]
fn getcreds_with_many_zeros() {
    let mut message = from_hex("00000001 17");
    message.resize(5 + 65_531, 0);
    assert_eq!(request_known(&message), Some(5));
    message.push(0);
    let Request::Refused(refusal) = read_request(&message) else { panic!() };
    assert_eq!((refusal.number, refusal.place), (2, 0));
}

#[test]
fn texts_at_the_ends() {
    for text in ["ed9fbf", "f48fbfbf", "c280"] {
        let message = from_hex(&format!("00000001 0f 0000000{} {text}", text.len() / 2));
        assert_eq!(request_known(&message), Some(9 + text.len() / 2));
    }
    for text in ["eda080", "f4908080", "c080"] {
        let message = format!("00000001 0f 0000000{} {text}", text.len() / 2);
        assert_eq!(request_refusal(&message), (5, 9));
    }
}

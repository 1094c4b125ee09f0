//! Each refusal of each writer, and pairs of causes: 3, 8, 9, 5, 6, 2, 7.

mod common;

use common::*;
use second::value::Value;
use second::write_reply::*;
use second::write_request::*;

const BAD: &[u8] = b"a\xff";

fn long(first: u8) -> Vec<u8> {
    let mut text = vec![b'a'; 66_000];
    text[0] = first;
    text
}

#[test]
fn request_5_2_7() {
    let write = |path: Vec<u8>| {
        move |buffer: &mut [u8]| write_request(buffer, 1, method("unlink"), &[Value::run(&path)])
    };
    assert_refused(5, 50, write(BAD.to_vec()));
    assert_refused(5, 0, write(BAD.to_vec()));
    assert_refused(5, 70_000, write(long(0xff)));
    assert_refused(5, 0, write(long(0xff)));
    assert_refused(2, 70_000, write(long(b'a')));
    assert_refused(2, 0, write(long(b'a')));
    assert_refused(7, 9, write(b"a".to_vec()));
}

#[test]
fn request_with_a_bad_second_text() {
    let good = long(b'a');
    let values = [Value::run(&good), Value::run(BAD)];
    for name in ["symlink", "link"] {
        assert_refused(5, 0, |buffer| write_request(buffer, 1, method(name), &values));
    }
    let half = vec![b'h'; 40_000];
    let values = [Value::run(&half), Value::run(&half)];
    assert_refused(2, 0, |buffer| write_request(buffer, 1, method("symlink"), &values));
}

#[test]
fn data_is_not_text() {
    let values = [Value::run(b"p"), Value::run(BAD), Value::Unsigned(1), Value::Unsigned(2)];
    let wanted = second::hex::from_hex(
        "00000001 11 00000001 70 00000002 61ff 0000000000000001 0000000000000002",
    );
    assert_stored(&wanted, 40, |buffer| write_request(buffer, 1, method("write"), &values));
}

#[test]
fn unknown_request_3_7() {
    for kind in 0..=255u8 {
        let write = |buffer: &mut [u8]| write_unknown_request(buffer, 0x0102_0304, kind);
        if (0x01..=0x17).contains(&kind) {
            assert_refused(3, 9, write);
            assert_refused(3, 0, write);
        } else {
            assert_stored(&[1, 2, 3, 4, kind], 9, write);
            assert_refused(7, 4, write);
        }
    }
}

#[test]
fn failure_3_8_7() {
    for kind in 0..=255u8 {
        let write = |code| move |buffer: &mut [u8]| write_failure(buffer, 1, kind, code);
        if (0x81..=0x96).contains(&kind) {
            assert_stored(&[0, 0, 0, 1, kind, 0xff, 0xff, 0xff, 0xea], 10, write(-22));
            assert_refused(8, 10, write(0));
            assert_refused(8, 0, write(i32::MAX));
            assert_refused(7, 8, write(i32::MIN));
        } else {
            assert_refused(3, 10, write(-1));
            assert_refused(3, 0, write(0));
        }
    }
}

#[test]
fn success_8_5_2_7() {
    let write = |result, text: Vec<u8>| {
        move |buffer: &mut [u8]| {
            write_success(buffer, 1, method("readlink"), result, &[Value::run(&text)])
        }
    };
    assert_refused(8, 50, write(-1, b"a".to_vec()));
    assert_refused(8, 50, write(i32::MIN, BAD.to_vec()));
    assert_refused(8, 0, write(-1, long(0xff)));
    assert_refused(5, 50, write(0, BAD.to_vec()));
    assert_refused(5, 0, write(0, long(0xff)));
    assert_refused(2, 0, write(1, long(b'a')));
    assert_refused(7, 13, write(1, b"a".to_vec()));
}

#[test]
fn read_8_6_2_7() {
    let write = |result, length| {
        let data = vec![0xff; length];
        move |buffer: &mut [u8]| {
            write_success(buffer, 1, method("read"), result, &[Value::run(&data)])
        }
    };
    assert_refused(8, 50, write(-1, 1));
    assert_refused(8, 0, write(-1, 65_524));
    assert_refused(6, 50, write(2, 1));
    assert_refused(6, 50, write(0, 1));
    assert_refused(6, 0, write(1, 0));
    assert_refused(6, 70_000, write(65_523, 65_524));
    assert_refused(6, 50, write(i32::MAX, 3));
    assert_refused(2, 0, write(65_524, 65_524));
    assert_refused(7, 15, write(3, 3));
}

#[test]
fn a_write_reply_has_no_data_length() {
    let wanted = second::hex::from_hex("00000001 91 7fffffff");
    assert_stored(&wanted, 9, |buffer| write_success(buffer, 1, method("write"), i32::MAX, &[]));
}

#[test]
fn readdir_8_9_5_2_7() {
    let write = |result, run: Vec<u8>, lengths: Vec<u32>| {
        move |buffer: &mut [u8]| write_readdir(buffer, 1, result, &run, &lengths)
    };
    assert_refused(8, 50, write(-1, b"ab".to_vec(), vec![1]));
    assert_refused(8, 0, write(-1, BAD.to_vec(), vec![2]));
    assert_refused(9, 50, write(0, BAD.to_vec(), vec![1]));
    assert_refused(9, 0, write(0, long(0xff), vec![1]));
    assert_refused(9, 0, write(0, long(b'a'), vec![66_001]));
    assert_refused(5, 50, write(0, BAD.to_vec(), vec![1, 1]));
    assert_refused(5, 0, write(0, long(0xff), vec![66_000]));
    assert_refused(2, 0, write(0, long(b'a'), vec![66_000]));
    assert_refused(7, 18, write(0, b"ab".to_vec(), vec![2]));
}

#[test]
fn getcreds_5_2_7_and_unknown_response_7() {
    let write = |text: Vec<u8>| move |buffer: &mut [u8]| write_getcreds(buffer, 1, &text);
    assert_refused(5, 50, write(BAD.to_vec()));
    assert_refused(5, 0, write(long(0xff)));
    assert_refused(2, 0, write(long(b'a')));
    assert_refused(7, 9, write(b"a".to_vec()));
    assert_refused(7, 4, |buffer| write_unknown_response(buffer, 1));
}

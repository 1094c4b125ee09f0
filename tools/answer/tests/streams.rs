//! The input as a stream: its end, cases that do not keep the format, and answers while more is to come.

mod common;

use common::{bytes, case, next_line, run, start};
use std::io::Write;

/// A request that is read, and its line.
const UNKNOWN: &str = "00000005 00 | 00000023 42";
const UNKNOWN_LINE: &str = "unknown 35 66 5 parts=1390663664";

#[test]
fn an_empty_input_has_no_lines() {
    let output = run(b"");
    assert_eq!((output.stdout.len(), output.stderr.len()), (0, 0));
    assert_eq!(output.status.code(), Some(0));
}

/// The good case in front is answered; the program then ends with 2 and this message.
fn assert_malformed(input: &[u8], message: &str) {
    let mut whole = case(b'q', &bytes(UNKNOWN));
    whole.extend(input);
    let output = run(&whole);
    assert_eq!(String::from_utf8_lossy(&output.stderr), format!("answer: case 2: {message}\n"));
    assert_eq!(String::from_utf8_lossy(&output.stdout), format!("{UNKNOWN_LINE}\n"));
    assert_eq!(output.status.code(), Some(2));
}

#[test]
fn an_op_that_is_not_known() {
    for op in [b's', b'o', b'Q', 0] {
        assert_malformed(&case(op, &[]), "an op that is not known");
    }
}

#[test]
fn a_broken_frame() {
    assert_malformed(b"q", "the input ends inside the case");
    assert_malformed(b"q\x00\x00\x00\x05\x00", "the input ends inside the case");
    assert_malformed(b"q\x00\x03\x0d\x41", "a body that is too long");
}

#[test]
fn a_body_of_another_length() {
    const SHORT: &str = "a body that is too short";
    for (op, body) in [
        (b'q', "00000005"),
        (b'l', "00000005"),
        (b'w', "00000005 00000001"),
        (b'w', "00000005 00000001 02"),
        (b'w', "00000005 00000001 02 | 00000002 00 00000002 2f"),
        (b'd', "00000005 00000001 00000000 | 00000000 00 00000000 | 00000001"),
        (b'e', "00000005 000001"),
        (b't', "00"),
        (b't', "0001"),
        (b't', "0001 01 00000001"),
        (b't', "0000 | 6e 00000001"),
        (b't', "0000 | 61 00000002 00 00000002 2f"),
        (b't', "0000 | 6b 000001"),
    ] {
        assert_malformed(&case(op, &bytes(body)), SHORT);
    }
    assert_malformed(&case(b'e', &bytes("00000005 00000001 00")), "bytes behind the body");
}

#[test]
fn a_value_that_no_case_has() {
    const LENGTH: &str = "a length above the greatest";
    let rows = [
        (b'q', "00011171 00", LENGTH),
        (b'f', "00011171 00000000 00", LENGTH),
        (b'c', "00000005 00000001 | 00011171 00 00000000", LENGTH),
        (b'w', "00000005 00000001 00", "a type that no method has"),
        (b'w', "00000005 00000001 18", "a type that no method has"),
        (b'r', "00000005 00000001 80 00000000", "a type that no such reply has"),
        (b'r', "00000005 00000001 93 00000000", "a type that no such reply has"),
        (b'r', "00000005 00000001 97 00000000", "a type that no such reply has"),
        (b'r', "00000005 00000001 01 00000000", "a type that no such reply has"),
        (b'w', "00000005 00000001 0a | 00000000 00 00000000 02 0000000000000000", "a bool that is neither 0 nor 1"),
        (b'd', "00000005 00000001 00000000 | 00000000 00 00000000 | 00004001", "a count above the greatest"),
        (b'g', "02 00000005 00000000 00", "a side that is neither 0 nor 1"),
        (b't', "00c9", "a count above the greatest"),
        (b't', "0001 02", "a record that is neither free nor held"),
        (b't', "0000 | 65 45", "a call that is not known"),
        (b't', "0000 | 61 00011171 00 00000000", LENGTH),
    ];
    for (op, body, message) in rows {
        assert_malformed(&case(op, &bytes(body)), message);
    }
}

/// An answer is out before the program waits, also where it waits inside a case.
#[test]
fn answers_before_the_input_ends() {
    let unknown = case(b'q', &bytes(UNKNOWN));
    let mut child = start();
    let mut stdin = child.stdin.take().expect("a pipe");
    let mut sent = 0;
    for begun in [0, 1, 7, 0] {
        stdin.write_all(&unknown[sent..]).expect("the program reads");
        stdin.write_all(&unknown[..begun]).expect("the program reads");
        assert_eq!(next_line(&mut child), UNKNOWN_LINE);
        sent = begun;
    }
    drop(stdin);
    assert_eq!(child.wait().expect("the program ends").code(), Some(0));
}

/// More cases than a pipe holds, and a body that is longer than what is read at a time.
#[test]
fn many_cases() {
    const COUNT: usize = 20_000;
    let mut body = bytes("00011170 00 | 00000023 42");
    body.resize(150_000, 0);
    let mut child = start();
    let mut stdin = child.stdin.take().expect("a pipe");
    let writer = std::thread::spawn(move || {
        for _ in 0..COUNT {
            stdin.write_all(&case(b'q', &bytes(UNKNOWN))).expect("the program reads");
        }
        stdin.write_all(&case(b'q', &body)).expect("the program reads");
    });
    let output = child.wait_with_output().expect("the program ends");
    writer.join().expect("all is written");
    let expected = format!("{UNKNOWN_LINE}\n").repeat(COUNT) + "refused 2 at 0 parts=1390663664\n";
    assert!(output.stdout == expected.as_bytes(), "{COUNT} lines of an unknown request and a refusal");
    assert_eq!(output.status.code(), Some(0));
}

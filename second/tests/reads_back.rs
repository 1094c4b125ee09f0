//! What was written is accepted and reads back as the same values.

mod common;

use common::*;
use second::methods::{Field, Kind, GETCREDS, METHODS, READDIR};
use second::names::Names;
use second::reply::{read_reply, Reply};
use second::request::{read_request, Request};
use second::value::Value;
use second::write_reply::*;
use second::write_request::*;

/// Values of a kind at both ends, and texts of several lengths.
fn values(kind: Kind) -> Vec<Value<'static>> {
    match kind {
        Kind::U8 => [0, 1, 255].map(Value::Unsigned).to_vec(),
        Kind::U32 => [0, 0x0102_0304, 0xffff_ffff].map(Value::Unsigned).to_vec(),
        Kind::U64 => [0, 0x0102_0304_0506_0708, u64::MAX].map(Value::Unsigned).to_vec(),
        Kind::I8 => [-128, -1, 127].map(Value::Signed).to_vec(),
        Kind::I32 => [i32::MIN, -1, i32::MAX].map(Value::Signed).to_vec(),
        Kind::Bool => [true, false, true].map(Value::Bool).to_vec(),
        Kind::Text => ["", "\0", "/\u{10ffff}"].map(|text| Value::run(text.as_bytes())).to_vec(),
        Kind::Data => [&b""[..], b"\xff", b"\x80\x81"].map(Value::run).to_vec(),
        Kind::Names => panic!("names have a writer of their own"),
    }
}

/// The values without the places of their parts.
fn placeless<'a>(values: &[Value<'a>]) -> Vec<Value<'a>> {
    let placeless = |value: &Value<'a>| match value {
        Value::Part(part) => Value::run(part.bytes),
        other => *other,
    };
    values.iter().map(placeless).collect()
}

/// Three sets of values, each field with another of its values in each.
fn sets(fields: &[Field]) -> Vec<Vec<Value<'static>>> {
    let set = |turn: usize| {
        let pick = |(index, field): (usize, &Field)| values(field.kind)[(turn + index) % 3];
        fields.iter().enumerate().map(pick).collect()
    };
    (0..3).map(set).collect()
}

#[test]
fn requests() {
    for method in &METHODS {
        for wanted in sets(method.request) {
            let mut buffer = pattern(200);
            let length = write_request(&mut buffer, 0xfffe_fdfc, method, &wanted).unwrap();
            match read_request(&buffer[..length]) {
                Request::Known { id: 0xfffe_fdfc, method: found, values, known } => {
                    assert_eq!((found, known), (method, length));
                    assert_eq!(placeless(&values), wanted);
                }
                other => panic!("{other:?}"),
            }
        }
    }
}

#[test]
fn successes() {
    for method in METHODS.iter().filter(|method| ![READDIR, GETCREDS].contains(&method.number)) {
        for wanted in sets(method.reply) {
            let result = match &wanted[..] {
                [Value::Part(data)] => data.bytes.len() as i32,
                _ => i32::MAX,
            };
            let mut buffer = pattern(200);
            let length = write_success(&mut buffer, 7, method, result, &wanted).unwrap();
            match read_reply(&buffer[..length]) {
                Reply::Success { id: 7, method: found, result: shown, values, known } => {
                    assert_eq!((found, shown, known), (method, result, length));
                    assert_eq!(placeless(&values), wanted);
                }
                other => panic!("{other:?}"),
            }
        }
    }
}

#[test]
fn names_and_credentials() {
    let mut buffer = pattern(200);
    let length = write_readdir(&mut buffer, 7, 9, b"abc\xc3\xa9", &[0, 3, 0, 2]).unwrap();
    let names: Vec<_> = Names::open(&buffer[..length]).map(|name| name.bytes).collect();
    assert_eq!(names, [&b""[..], b"abc", b"", b"\xc3\xa9"]);
    let length = write_getcreds(&mut buffer, 7, b"secret").unwrap();
    match read_reply(&buffer[..length]) {
        Reply::Credentials { id: 7, creds, known: 15 } => assert_eq!(creds.bytes, b"secret"),
        other => panic!("{other:?}"),
    }
}

#[test]
fn failures_and_unknown_ones() {
    let mut buffer = pattern(20);
    for kind in 0x81..=0x96 {
        for code in [-1, -22, i32::MIN] {
            assert_eq!(write_failure(&mut buffer, 8, kind, code), Ok(9));
            let wanted = Reply::Failure { id: 8, kind, result: code, known: 9 };
            assert_eq!(read_reply(&buffer[..9]), wanted);
        }
    }
    assert_eq!(write_unknown_response(&mut buffer, 9), Ok(5));
    assert_eq!(read_reply(&buffer[..5]), Reply::UnknownResponse { id: 9, known: 5 });
    for kind in (0x18..=0xff).chain([0]) {
        assert_eq!(write_unknown_request(&mut buffer, 10, kind), Ok(5));
        assert_eq!(read_request(&buffer[..5]), Request::Unknown { id: 10, kind, known: 5 });
    }
}

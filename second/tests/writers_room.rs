//! Rooms that are exact, short and larger than any message.

mod common;

use common::*;
use second::hex::from_hex;
use second::methods::{Field, Kind, GETCREDS, METHODS, READDIR};
use second::value::Value;
use second::write_reply::*;
use second::write_request::*;

/// Values with different bytes; texts and data of two bytes.
fn values(fields: &[Field]) -> Vec<Value<'static>> {
    let value = |field: &Field| match field.kind {
        Kind::Text | Kind::Data => Value::run(b"ab"),
        Kind::Bool => Value::Bool(true),
        Kind::I8 | Kind::I32 => Value::Signed(-3),
        _ => Value::Unsigned(0x0102_0304_0506_0708),
    };
    fields.iter().map(value).collect()
}

fn size(fields: &[Field]) -> usize {
    fields.iter().map(|field| field.kind.width().unwrap_or(6)).sum()
}

#[test]
fn every_request() {
    for method in &METHODS {
        let values = values(method.request);
        let needed = 5 + size(method.request);
        let write = |buffer: &mut [u8]| write_request(buffer, 1, method, &values);
        let mut whole = vec![0; needed];
        assert_eq!(write(&mut whole), Ok(needed));
        for room in [needed, needed + 1, 65_536, 65_537, 70_000] {
            assert_stored(&whole, room, write);
        }
        for room in [0, 4, needed - 1] {
            assert_refused(7, room, write);
        }
    }
}

#[test]
fn every_success() {
    for method in METHODS.iter().filter(|method| ![READDIR, GETCREDS].contains(&method.number)) {
        let values = values(method.reply);
        let needed = 9 + size(method.reply);
        let write = |buffer: &mut [u8]| write_success(buffer, 1, method, 2, &values);
        let mut whole = vec![0; needed];
        assert_eq!(write(&mut whole), Ok(needed));
        for room in [needed, needed + 1, 65_537, 70_000] {
            assert_stored(&whole, room, write);
        }
        for room in [0, needed - 1] {
            assert_refused(7, room, write);
        }
    }
}

#[test]
fn the_other_writers() {
    let names = from_hex("00000001 93 00000000 00000002 00000001 61 00000000");
    let creds = from_hex("00000001 97 00000002 6162");
    for room in [22, 23, 65_537] {
        assert_stored(&names, room, |buffer| write_readdir(buffer, 1, 0, b"a", &[1, 0]));
        assert_stored(&creds, room, |buffer| write_getcreds(buffer, 1, b"ab"));
    }
    assert_refused(7, 21, |buffer| write_readdir(buffer, 1, 0, b"a", &[1, 0]));
    assert_refused(7, 10, |buffer| write_getcreds(buffer, 1, b"ab"));
    for room in [5, 6, 65_537] {
        let response = from_hex("00000001 80");
        assert_stored(&response, room, |buffer| write_unknown_response(buffer, 1));
    }
}

#[test]
fn messages_of_the_greatest_length() {
    let path = vec![b'p'; 65_527];
    let wanted = [&from_hex("00000001 0f 0000fff7")[..], &path].concat();
    assert_eq!(wanted.len(), 65_536);
    let values = [Value::run(&path)];
    let write = |buffer: &mut [u8]| write_request(buffer, 1, method("unlink"), &values);
    assert_stored(&wanted, 65_536, write);
    assert_stored(&wanted, 70_000, write);
    assert_refused(7, 65_535, write);
    let longer = vec![b'p'; 65_528];
    let values = [Value::run(&longer)];
    let write = |buffer: &mut [u8]| write_request(buffer, 1, method("unlink"), &values);
    assert_refused(2, 70_000, write);
    assert_refused(2, 65_536, write);
}

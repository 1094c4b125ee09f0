//! The examples of the protocol page, byte for byte.

mod common;

use common::*;
use second::front::{front, Front};
use second::hex::from_hex;
use second::names::Names;
use second::reply::{read_reply, Reply};
use second::request::{read_request, request_part, Request};
use second::write_reply::{write_failure, write_readdir, write_unknown_response};

/// Leaves out rdev and gives each nsec five bytes, as the page does.
const GETATTR_REPLY: &str = "
    00 00 00 01
    82
    00 00 00 00
    00 00 00 00 00 00 00 01
    00 00 00 00 00 00 00 02
    00 00 41 a4
    00 00 03 e8
    00 00 03 e8
    00 00 00 00 00 00 00 00
    00 00 00 00 00 00 00 00
    00 00 00 00 00 00 00 00
    00 00 00 00 00
    00 00 00 00 00 00 00 00
    00 00 00 00 00
    00 00 00 00 00 00 00 00
    00 00 00 00 00";

const READDIR_REPLY: &str = "
    00 00 00 02
    93
    00 00 00 00
    00 00 00 03
    00 00 00 03
    66 6f 6f
    00 00 00 03
    62 61 72
    00 00 00 03
    62 61 7a";

#[test]
fn getattr_reply_is_short_in_ctime() {
    assert_eq!(from_hex(GETATTR_REPLY).len(), 92);
    assert_eq!(reply_refusal(GETATTR_REPLY), (4, 85));
}

#[test]
fn getattr_requests_and_failure() {
    assert_eq!(request_known(&from_hex("00 00 00 01 02 00 00 00 01 2f")), Some(10));
    let foo = from_hex("00 00 00 01 02 00 00 00 04 2f 66 6f 6f");
    assert_eq!(request_part(&foo, "path"), b"/foo");
    let failure = from_hex("00 00 00 01 82 ff ff ff fe");
    let wanted = Reply::Failure { id: 1, kind: 0x82, result: -2, known: 9 };
    assert_eq!(read_reply(&failure), wanted);
    assert_stored(&failure, 12, |buffer| write_failure(buffer, 1, 0x82, -2));
}

#[test]
fn readdir_request_and_reply() {
    let request = from_hex("00 00 00 02 13 00 00 00 04 2f 64 69 72");
    assert_eq!(request_part(&request, "path"), b"/dir");
    let reply = from_hex(READDIR_REPLY);
    assert_eq!(reply.len(), 34);
    assert_eq!(reply_known(&reply), Some(34));
    let names: Vec<_> = Names::open(&reply).map(|name| (name.start, name.bytes)).collect();
    assert_eq!(names, [(17, &b"foo"[..]), (24, b"bar"), (31, b"baz")]);
    assert_stored(&reply, 34, |buffer| write_readdir(buffer, 2, 0, b"foobarbaz", &[3, 3, 3]));
}

#[test]
fn unknown_request() {
    let request = from_hex("00 00 00 23 42 de ad be ef");
    assert_eq!(read_request(&request), Request::Unknown { id: 0x23, kind: 0x42, known: 5 });
    let reply = from_hex("00 00 00 23 80");
    let mut buffer = pattern(5);
    assert_eq!(front(&request, &mut buffer), Front::Stored(5));
    assert_eq!(buffer, reply);
    assert_eq!(read_reply(&reply), Reply::UnknownResponse { id: 0x23, known: 5 });
    assert_stored(&reply, 9, |buffer| write_unknown_response(buffer, 0x23));
}

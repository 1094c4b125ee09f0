//! The write request of Item 3 of document 02: path, data, offset, handle. All
//! bytes and places here are counted by hand.

mod common;

use common::*;
use second::answer::answer;
use second::front::{front, Front};
use second::hex::from_hex;
use second::listing::list_request;
use second::refusal::Refusal;
use second::request::{read_request, request_part, Request};
use second::value::{Part, Value};
use second::write_request::write_request;

/// The path begins at 9 and ends at 12, the data begins at 16 and ends at 19,
/// the offset ends at 27 and the handle at 35.
const WHOLE: &str = "0a0b0c0d 11 00000003 2fc3a9 00000003 ff0080 0102030405060708 1112131415161718";

const LISTED: &str = "write id 168496141\npath 3\ndata 3\noffset 72623859790382856\n\
                      handle 1230066625199609624\nknown 35 of 35\n";

/// The line of writing again into a buffer of so many bytes.
fn again(room: u32, message: &[u8]) -> String {
    answer(b'g', &[&[0][..], &room.to_be_bytes(), &framed(message)].concat()).unwrap()
}

/// The reader, the listing and writing again tell the refusal, no part is
/// shown, and the front answers -22.
fn assert_request_refused(message: &[u8], number: u8, place: usize) {
    assert_eq!(read_request(message), Request::Refused(Refusal { number, place }));
    assert_eq!(list_request(message), format!("refused {number} at {place}\n"));
    assert_eq!(again(99, message), format!("refused {number} at {place}"));
    assert_eq!(
        (request_part(message, "path"), request_part(message, "data")),
        (&b""[..], &b""[..])
    );
    let wanted = [&message[..4], &from_hex("91 ffffffea")].concat();
    let mut buffer = pattern(11);
    assert_eq!(front(message, &mut buffer), Front::Stored(9));
    assert_eq!((&buffer[..9], &buffer[9..]), (&wanted[..], &pattern(11)[9..]));
    let mut short = pattern(8);
    assert_eq!(front(message, &mut short), Front::Refused(Refusal { number: 7, place: 0 }));
    assert_eq!(short, pattern(8));
}

/// The front hands the request on and stores nothing.
fn assert_handed_on(message: &[u8]) {
    for room in [0, 5, 9, 70_000] {
        let mut buffer = pattern(room);
        assert_eq!(front(message, &mut buffer), Front::HandedOn);
        assert_eq!(buffer, pattern(room));
    }
}

fn part(start: usize, bytes: &[u8]) -> Value<'_> {
    Value::Part(Part { start, bytes })
}

fn known(id: u32, values: Vec<Value>, known: usize) -> Request {
    Request::Known { id, method: method("write"), values, known }
}

#[test]
fn a_whole_request_is_read_and_listed() {
    let message = from_hex(WHOLE);
    let numbers = [0x0102_0304_0506_0708, 0x1112_1314_1516_1718].map(Value::Unsigned);
    let values = [part(9, b"/\xc3\xa9"), part(16, b"\xff\0\x80"), numbers[0], numbers[1]];
    assert_eq!(read_request(&message), known(0x0a0b_0c0d, values.to_vec(), 35));
    assert_eq!(request_part(&message, "path"), b"/\xc3\xa9");
    assert_eq!(request_part(&message, "data"), b"\xff\0\x80");
    assert_eq!(list_request(&message), LISTED);
    assert_handed_on(&message);
}

#[test]
fn a_whole_request_is_written() {
    let numbers = [0x0102_0304_0506_0708, 0x1112_1314_1516_1718].map(Value::Unsigned);
    let values = [Value::run(b"/\xc3\xa9"), Value::run(b"\xff\0\x80"), numbers[0], numbers[1]];
    let write = |buffer: &mut [u8]| write_request(buffer, 0x0a0b_0c0d, method("write"), &values);
    assert_stored(&from_hex(WHOLE), 35, write);
    assert_stored(&from_hex(WHOLE), 40, write);
    assert_refused(7, 34, write);
    assert!(again(35, &from_hex(WHOLE)).starts_with("stored 35 "));
    assert!(again(34, &from_hex(WHOLE)).starts_with("refused 7 at 0 "));
}

#[test]
fn path_and_data_may_be_empty() {
    let text = "00000001 11 00000000 00000000 0000000000000001 0000000000000002";
    let values = vec![part(9, b""), part(13, b""), Value::Unsigned(1), Value::Unsigned(2)];
    let message = from_hex(text);
    assert_eq!(read_request(&message), known(1, values, 29));
    assert!(again(29, &message).starts_with("stored 29 "));
    let listed = "write id 1\npath 0\ndata 0\noffset 1\nhandle 2\nknown 29 of 29\n";
    assert_eq!(list_request(&message), listed);
}

/// The place for each number of bytes that are left, from five on.
#[test]
fn every_cut() {
    let message = from_hex(WHOLE);
    for length in 0..5 {
        let refusal = Refusal { number: 1, place: 0 };
        assert_eq!(read_request(&message[..length]), Request::Refused(refusal));
        assert_eq!(front(&message[..length], &mut []), Front::Refused(refusal));
    }
    let places = [(5..9, 5), (9..12, 9), (12..16, 12), (16..19, 16), (19..27, 19), (27..35, 27)];
    for (lengths, place) in places {
        for length in lengths {
            assert_request_refused(&message[..length], 4, place);
        }
    }
}

#[test]
fn bytes_behind_change_nothing() {
    let message = from_hex(WHOLE);
    for (whole, fill) in [(36, 0xff), (39, 0x00), (51, 0x80), (65_536, 0x00), (65_536, 0xff)] {
        let longer = second::filled::filled(&message, whole, fill);
        assert_eq!(read_request(&longer), read_request(&message));
        let listed = LISTED.replace("35 of 35", &format!("35 of {whole}"));
        assert_eq!(list_request(&longer), listed);
        assert_handed_on(&longer);
    }
    let oversize = second::filled::filled(&message, 65_537, 0);
    assert_eq!(list_request(&oversize), "refused 2 at 0\n");
    let mut buffer = pattern(5);
    assert_eq!(front(&oversize, &mut buffer), Front::Stored(5));
    assert_eq!(buffer, from_hex("0a0b0c0d 80"));
}

/// The path is checked whole before the data is looked at.
#[test]
fn malformed_paths_come_before_truncated_data() {
    let rows = [
        // The length of the data lies; its bytes, its length and all are cut.
        ("00000001 11 00000003 2fff61 ffffffff 64", 10),
        ("00000001 11 00000003 2fff61 00000004 6461", 10),
        ("00000001 11 00000003 2fff61 0000", 10),
        ("00000001 11 00000003 2fff61", 10),
        // The front and the end of the path; a data length that would go on.
        ("00000001 11 00000003 ff2f61 ffffffff", 9),
        ("00000001 11 00000003 2f6180 ffffffff", 11),
        ("00000001 11 00000004 2f61e282 ac000000", 11),
        ("00000001 11 00000004 61e28241 00000009", 10),
        ("00000001 11 00000001 80 00000000 0000000000000001 0000000000000002", 9),
    ];
    for (text, place) in rows {
        assert_request_refused(&from_hex(text), 5, place);
    }
}

#[test]
fn truncated_paths_and_data() {
    let rows = [
        // A path that is cut off is not looked at.
        ("00000001 11 0000", 5),
        ("00000001 11 00000004 ffff61", 9),
        ("00000001 11 00000004", 9),
        ("00000001 11 ffffffff 2f 00000000 0000000000000001 0000000000000002", 9),
        ("00000001 11 7fffffff 2f", 9),
        ("00000001 11 80000000 2f", 9),
        // fffffff7 and 9 are 0 in 32 bits.
        ("00000001 11 fffffff7 2f", 9),
        ("00000001 11 00000001 2f 00000005 64617461", 14),
        ("00000001 11 00000001 2f ffffffff 64617461", 14),
        ("00000001 11 00000001 2f 80000000 64617461", 14),
        ("00000001 11 00000001 2f fffffff2 64617461", 14),
        // Too short a path: what follows it is read as the length.
        ("00000001 11 00000000 2f000000 00000000 0000000000000001 0000000000000002", 13),
        // Too long a path takes the length of the data.
        ("00000001 11 00000005 2f 00000001 64 0000000000000001 0000000000000002", 18),
    ];
    for (text, place) in rows {
        assert_request_refused(&from_hex(text), 4, place);
    }
}

/// Data is bytes.
#[test]
fn malformed_data_is_accepted() {
    for data in ["80", "c0", "ff", "c3", "ed", "f5"] {
        let text =
            format!("00000001 11 00000000 00000001 {data} 0000000000000001 0000000000000002");
        let message = from_hex(&text);
        assert_eq!(request_known(&message), Some(30));
        assert_eq!(request_part(&message, "data"), from_hex(data));
        assert!(again(30, &message).starts_with("stored 30 "));
    }
}

/// Messages of the page's row: data, offset, handle. Their data is read as the
/// path, and the upper half of the offset as the length of the data.
#[test]
fn writes_without_a_path_are_refused() {
    let rows = [
        // The offset takes half of the handle, and the handle is truncated.
        ("00000001 11 00000000 0000000000000001 0000000000000002", 4, 21),
        ("00000001 11 00000003 616263 0000000000000001 0000000000000002", 4, 24),
        // One byte too few behind it.
        ("00000001 11 00000003 616263 0000000000000001 0000000000000002 ffffff", 4, 24),
        // Five bytes of data leave seven for the offset; twelve leave none.
        ("00000001 11 00000003 616263 0000000500000001 0000000000000002", 4, 21),
        ("00000001 11 00000003 616263 0000000c00000001 0000000000000002", 4, 28),
        ("00000001 11 00000003 616263 0000000d00000001 0000000000000002", 4, 16),
        ("00000001 11 00000001 61 ffffffffffffffff 0000000000000002", 4, 14),
        // The data is no text.
        ("00000001 11 00000001 ff 0000000000000001 0000000000000002", 5, 9),
        ("00000001 11 00000004 6162c361 0000000000000001 0000000000000002 00000000", 5, 11),
    ];
    for (text, number, place) in rows {
        assert_request_refused(&from_hex(text), number, place);
    }
}

/// With enough bytes behind it such a message is accepted, with other fields.
#[test]
fn writes_without_a_path_may_be_accepted() {
    let text = "00000001 11 00000003 616263 0000000000000001 0000000000000002 0a0b0c0d";
    let message = from_hex(text);
    let numbers = [0x0000_0001_0000_0000, 0x0000_0002_0a0b_0c0d].map(Value::Unsigned);
    let values = vec![part(9, b"abc"), part(16, b""), numbers[0], numbers[1]];
    assert_eq!(read_request(&message), known(1, values, 32));
    let listed =
        "write id 1\npath 3\ndata 0\noffset 4294967296\nhandle 8758430733\nknown 32 of 32\n";
    assert_eq!(list_request(&message), listed);
    assert_handed_on(&message);
    assert!(again(32, &message).starts_with("stored 32 "));
    // The upper half of the offset is 2: the data is two bytes of the lower.
    let text = "00000001 11 00000000 0000000200040005 0000000000000002 010203040506 ff";
    let message = from_hex(text);
    let numbers = [0x0005_0000_0000_0000, 0x0002_0102_0304_0506].map(Value::Unsigned);
    let values = vec![part(9, b""), part(13, b"\0\x04"), numbers[0], numbers[1]];
    assert_eq!(read_request(&message), known(1, values, 31));
}

/// The writer of a path and data.
fn writer(path: Vec<u8>, data: Vec<u8>) -> impl Fn(&mut [u8]) -> Result<usize, Refusal> {
    move |buffer| {
        let numbers = [1, 2].map(Value::Unsigned);
        let values = [Value::run(&path), Value::run(&data), numbers[0], numbers[1]];
        write_request(buffer, 1, method("write"), &values)
    }
}

fn bytes(length: usize) -> Vec<u8> {
    vec![b'b'; length]
}

#[test]
fn the_writer_checks_5_2_7() {
    let malformed = b"/\xe2\x82".to_vec();
    let long_malformed = [&bytes(66_000)[..], b"\xff"].concat();
    for room in [0, 100, 70_000] {
        assert_refused(5, room, writer(malformed.clone(), bytes(3)));
        assert_refused(5, room, writer(malformed.clone(), bytes(65_536)));
        assert_refused(5, room, writer(long_malformed.clone(), bytes(0)));
        assert_refused(5, room, writer(long_malformed.clone(), bytes(70_000)));
        for (path, data) in [
            (65_507, 1),
            (1, 65_507),
            (0, 65_508),
            (65_508, 0),
            (40_000, 40_000),
            (32_768, 32_768),
            (65_536, 65_507),
            (70_000, 70_000),
        ] {
            assert_refused(2, room, writer(bytes(path), bytes(data)));
        }
    }
    for room in [0, 4, 30] {
        assert_refused(7, room, writer(bytes(1), bytes(1)));
    }
    let malformed_data = "00000001 11 00000001 62 00000001 ff 0000000000000001 0000000000000002";
    assert_stored(&from_hex(malformed_data), 31, writer(bytes(1), vec![0xff]));
}

/// The greatest length, with the room in the path, in the data and in both.
#[test]
fn the_longest_requests() {
    let rows = [
        (65_507, 0, "0000ffe3", "00000000"),
        (0, 65_507, "00000000", "0000ffe3"),
        (1, 65_506, "00000001", "0000ffe2"),
        (32_753, 32_754, "00007ff1", "00007ff2"),
    ];
    for (path, data, path_length, data_length) in rows {
        let start = [from_hex("00000001 11"), from_hex(path_length), bytes(path)].concat();
        let end = [from_hex(data_length), bytes(data)].concat();
        let numbers = from_hex("0000000000000001 0000000000000002");
        let wanted = [start, end, numbers].concat();
        assert_eq!(wanted.len(), 65_536);
        assert_stored(&wanted, 65_536, writer(bytes(path), bytes(data)));
        assert_refused(7, 65_535, writer(bytes(path), bytes(data)));
        assert_refused(2, 70_000, writer(bytes(path + 1), bytes(data)));
        assert_refused(2, 70_000, writer(bytes(path), bytes(data + 1)));
        assert_eq!(request_known(&wanted), Some(65_536));
        assert_eq!(request_part(&wanted, "path").len(), path);
        assert_eq!(request_part(&wanted, "data").len(), data);
    }
}

/// The write reply is that of the page.
#[test]
fn the_reply_stays() {
    assert_eq!(reply_known(&from_hex("00000001 91 00000003")), Some(9));
    assert_eq!(reply_known(&from_hex("00000001 91 00000003 ffffffff")), Some(9));
    assert_eq!(reply_refusal("00000001 91 000000"), (4, 5));
}

//! Answer lines of what an answer's own functions show.

mod common;

use common::{framed, lent};
use second::answer::answer;
use second::hash::hash;
use second::hex::from_hex;
use second::make::Cases;

const REQUEST: u8 = 0;
const REPLY: u8 = 1;

/// The parts of a request and of a reply that shows none.
const NONE: &str = "request 0:0 0:0 0:0 0:0 0:0 0:0";
const NONE_OF_REPLY: &str = "reply 0:0 0:0 0:0";

/// The checksum of the list of lengths as it was: 3, 10, 17 and so on.
const UNTOUCHED: &str = "3681984775";

fn line(side: u8, room: u32, message: &[u8]) -> String {
    let body = [&[side][..], &room.to_be_bytes(), message].concat();
    answer(b's', &body).unwrap()
}

fn request(room: u32, message: &str) -> String {
    line(REQUEST, room, &from_hex(message))
}

fn reply(room: u32, message: &str) -> String {
    line(REPLY, room, &from_hex(message))
}

#[test]
fn requests_written_again() {
    let getattr = "00000001 02 00000001 2f";
    let parts = "request 1:48 0:0 0:0 0:0 0:0 0:0";
    assert_eq!(request(10, getattr), format!("{parts} stored 10 3724320677 0"));
    // Byte 10 of the buffer is 73.
    assert_eq!(request(11, getattr), format!("{parts} stored 10 3724320677 74"));
    assert_eq!(request(9, getattr), format!("{parts} refused 7 at 0 1239117558"));
    assert_eq!(request(1, getattr), format!("{parts} refused 7 at 0 4"));
    assert_eq!(request(0, getattr), format!("{parts} refused 7 at 0 0"));
    let behind = format!("{getattr} ff00");
    assert_eq!(request(10, &behind), format!("{parts} stored 10 3724320677 0"));
    assert_eq!(request(5, "00000001 17"), format!("{NONE} stored 5 84544290 0"));
}

#[test]
fn true_is_written_as_1() {
    let fsync = |byte: &str| request(18, &format!("00000001 0a 00000000 {byte} 0000000000000002"));
    assert_eq!(fsync("00"), format!("{NONE} stored 18 4186738865 0"));
    assert_eq!(fsync("01"), format!("{NONE} stored 18 1513468462 0"));
    assert_eq!(fsync("07"), format!("{NONE} stored 18 1513468462 0"));
}

#[test]
fn each_part_of_a_request_has_its_place() {
    let parts = |message: &str| {
        let line = request(0, message);
        line.strip_suffix(" refused 7 at 0 0").unwrap().to_string()
    };
    let symlink = "00000001 04 00000001 74 00000002 6c6b";
    assert_eq!(parts(symlink), "request 0:0 1:117 2:28121 0:0 0:0 0:0");
    let link = "00000001 05 00000001 6f 00000000";
    assert_eq!(parts(link), "request 0:0 0:0 0:0 1:112 0:0 0:0");
    let rename = "00000001 06 00000000 00000002 6c6b 80";
    assert_eq!(parts(rename), "request 0:0 0:0 0:0 0:0 2:28121 0:0");
    let write = "00000001 11 00000001 2f 00000002 ff00 0000000000000001 0000000000000002";
    assert_eq!(parts(write), "request 1:48 0:0 0:0 0:0 0:0 2:65793");
}

#[test]
fn other_requests_show_nothing() {
    // No byte, a runt, an unknown one, a path without its mode, a bad path.
    for message in
        ["", "00000023", "00000023 42", "00000007 01 00000001 2f", "00000005 0f 00000001 80"]
    {
        assert_eq!(request(30, message), NONE);
    }
}

/// The checksums of buffers of no byte to three, as they were: 3, 10, 17.
const BUFFERS: [u32; 4] = [0, 4, 1_039, 267_041];

#[test]
fn parts_of_replies() {
    let parts = |message: &str| {
        let line = reply(0, message);
        line.strip_suffix(" refused 7 at 0 0").unwrap().to_string()
    };
    assert_eq!(parts("00000001 83 00000000 00000001 61"), "reply 1:98 0:0 0:0 end");
    assert_eq!(parts("00000001 90 00000001 00000001 61"), "reply 0:0 1:98 0:0 end");
    assert_eq!(parts("00000001 81 00000000"), format!("{NONE_OF_REPLY} end"));
    // A reply that has no result is not written again.
    assert_eq!(reply(9, "00000001 97 00000001 61"), "reply 0:0 0:0 1:98 end");
    let none = [
        "",
        "00000001 80 00000000 00000001 61",
        // A failure with the text behind it, and another result than the data.
        "00000001 83 ffffffff 00000001 61",
        "00000001 90 00000002 00000001 61",
        // A failure of readdir, and a name that is cut off.
        "00000001 93 fffffffe 00000001 00000001 61",
        "00000001 93 00000000 00000002 00000001 61 00000001",
    ];
    for message in none {
        assert_eq!(reply(9, message), format!("{NONE_OF_REPLY} end"));
    }
}

#[test]
fn names_are_copied() {
    let names = "00000001 93 00000005 00000002 00000001 61 00000000 ff";
    let shown = format!("{NONE_OF_REPLY} name=17:1:98 name=22:0:0 end");
    // The lengths begin with 1 and 0; the third is still 17.
    let again = |room: u32| format!("refused 7 at 0 {}", BUFFERS[room as usize]);
    let collected = "collected 2 1 98 3559410421";
    assert_eq!(reply(1, names), format!("{shown} {collected} {}", again(1)));
    // Byte 1 of the run is still 10.
    let collected = "collected 2 1 25197 3559410421";
    assert_eq!(reply(2, names), format!("{shown} {collected} {}", again(2)));
    assert_eq!(reply(0, names), format!("{shown} refused 7 at 0 0 {UNTOUCHED} {}", again(0)));
    let accents = "00000002 93 00000000 00000003 00000000 00000002 c3a9 00000001 78";
    let shown = format!("{NONE_OF_REPLY} name=17:0:0 name=21:2:50542 name=27:1:121 end");
    let collected = "collected 3 3 12989415 2154097242";
    assert_eq!(reply(3, accents), format!("{shown} {collected} {}", again(3)));
    assert_eq!(reply(2, accents), format!("{shown} refused 7 at 0 1039 {UNTOUCHED} {}", again(2)));
    let empty = "00000001 93 00000000 00000000";
    let collected = format!("collected 0 0 0 {UNTOUCHED}");
    assert_eq!(reply(0, empty), format!("{NONE_OF_REPLY} end {collected} {}", again(0)));
}

#[test]
fn replies_written_again() {
    let again = |room: u32, message: &str| {
        let line = reply(room, message);
        let at = line.rfind(" stored ").or_else(|| line.rfind(" refused ")).unwrap();
        line[at + 1..].to_string()
    };
    let access = "00000001 81 00000007";
    let hashed = hash(&from_hex(access));
    assert_eq!(again(9, access), format!("stored 9 {hashed} 0"));
    // Byte 9 of the buffer is 66.
    assert_eq!(again(10, access), format!("stored 9 {hashed} 67"));
    assert_eq!(again(8, access), format!("refused 7 at 0 {}", hash(&lent(8))));
    // The bytes behind the last name are not written again.
    let names = "00000001 93 00000005 00000002 00000001 61 00000000";
    let hashed = hash(&from_hex(names));
    assert_eq!(again(22, &format!("{names} ff")), format!("stored 22 {hashed} 0"));
    assert_eq!(again(21, names), format!("refused 7 at 0 {}", hash(&lent(21))));
}

#[test]
fn sixteen_lengths_have_room() {
    let named = |count: u8, room: u32| {
        let mut message = from_hex("00000001 93 00000000 000000");
        message.push(count);
        message.resize(13 + 4 * usize::from(count), 0);
        let line = line(REPLY, room, &message);
        line.split_once(" end ").unwrap().1.to_string()
    };
    let again = |room: usize| format!("refused 7 at 0 {}", BUFFERS[room]);
    assert_eq!(named(16, 0), format!("collected 16 0 0 {} {}", hash(&[0; 64]), again(0)));
    assert_eq!(named(17, 0), format!("refused 7 at 0 0 {UNTOUCHED} {}", again(0)));
    assert_eq!(named(17, 1), format!("refused 7 at 0 4 {UNTOUCHED} {}", again(1)));
}

#[test]
fn cases_out_of_format_are_errors() {
    let sized = |room: u32, length: usize| {
        let body = [&[REQUEST][..], &room.to_be_bytes(), &vec![0; length]].concat();
        answer(b's', &body)
    };
    assert!(sized(1_024, 1_024).is_ok());
    assert!(sized(1_025, 5).is_err());
    assert!(sized(5, 1_025).is_err());
    assert!(answer(b's', &from_hex("02 00000000 00000001 17")).is_err());
    assert!(answer(b's', &from_hex("00 000000")).is_err());
}

/// LEN:HASH of a part that a reader's line shows.
fn size<'a>(read: &'a str, name: &str) -> &'a str {
    let shown = read.split(' ').find_map(|word| word.strip_prefix(&format!("{name}=")));
    shown.map_or("0:0", |part| part.split_once(':').unwrap().1)
}

#[test]
fn requests_agree_with_reading_and_writing_again() {
    let cases = Cases::of(21, "s").filter(|case| case.body[0] == REQUEST);
    for case in cases.take(2_000) {
        let message = framed(&case.body[5..]);
        let read = answer(b'q', &message).unwrap();
        let mut wanted = "request".to_string();
        for name in ["path", "target", "linkpath", "old_path", "new_path", "data"] {
            wanted += &format!(" {}", size(&read, name));
        }
        if read.starts_with("known ") {
            let again = answer(b'g', &[&case.body[..5], &message].concat()).unwrap();
            wanted += &format!(" {again}");
        }
        assert_eq!(answer(b's', &case.body).unwrap(), wanted);
    }
}

#[test]
fn replies_agree_with_reading() {
    let cases = Cases::of(22, "s").filter(|case| case.body[0] == REPLY);
    for case in cases.take(2_000) {
        let message = framed(&case.body[5..]);
        let read = answer(b'p', &message).unwrap();
        let mut wanted = "reply".to_string();
        for name in ["resolved", "data", "creds"] {
            wanted += &format!(" {}", size(&read, name));
        }
        for word in read.split(' ').filter(|word| word.starts_with("name=")) {
            wanted += &format!(" {word}");
        }
        wanted += " end";
        let line = answer(b's', &case.body).unwrap();
        let behind = line.strip_prefix(&wanted).unwrap();
        if !read.starts_with("success ") {
            assert_eq!(behind, "", "{line}");
            continue;
        }
        let again = answer(b'g', &[&case.body[..5], &message].concat()).unwrap();
        let collected = behind.strip_suffix(&format!(" {again}")).unwrap();
        assert_eq!(read.contains(" readdir "), !collected.is_empty(), "{line}");
    }
}

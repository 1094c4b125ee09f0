//! Parts of messages, the iterator over names, and their copy.

use second::hex::from_hex;
use second::names::{collect_names, Collected, Names};
use second::reply::reply_part;
use second::request::request_part;

#[test]
fn each_field_has_its_own_name() {
    let symlink = from_hex("00000001 04 00000001 74 00000002 6c6b");
    assert_eq!(request_part(&symlink, "target"), b"t");
    assert_eq!(request_part(&symlink, "linkpath"), b"lk");
    assert_eq!(request_part(&symlink, "path"), b"");
    let write = from_hex("00000001 11 00000001 70 00000002 ff00 0000000000000001 0000000000000002");
    assert_eq!(request_part(&write, "path"), b"p");
    assert_eq!(request_part(&write, "data"), [0xff, 0]);
    assert_eq!(request_part(&write, "offset"), b"");
}

#[test]
fn refused_messages_show_nothing() {
    // The path is whole and the mode is missing.
    assert_eq!(request_part(&from_hex("00000001 01 00000001 2f"), "path"), b"");
    assert_eq!(reply_part(&from_hex("00000001 90 00000002 00000001 61"), "data"), b"");
    assert_eq!(reply_part(&from_hex("00000001 90 ffffffff 00000001 61"), "data"), b"");
}

#[test]
fn parts_of_replies() {
    assert_eq!(reply_part(&from_hex("00000001 83 00000000 00000001 61"), "resolved"), b"a");
    assert_eq!(reply_part(&from_hex("00000001 83 00000000 00000001 61"), "data"), b"");
    assert_eq!(reply_part(&from_hex("00000001 97 00000001 61"), "creds"), b"a");
    assert_eq!(reply_part(&from_hex("00000001 97 00000001 61"), "resolved"), b"");
    assert_eq!(reply_part(&from_hex("00000001 80 00000001 61"), "creds"), b"");
}

#[test]
fn names_stop_at_the_count_and_stay_there() {
    let message = from_hex("00000001 93 00000000 00000003 00000000 00000001 61 00000000 00000000");
    let mut names = Names::open(&message);
    let mut given = Vec::new();
    for name in names.by_ref() {
        given.push((name.start, name.bytes));
    }
    assert_eq!(given, [(17, &b""[..]), (21, b"a"), (26, b"")]);
    for _ in 0..3 {
        assert!(names.next().is_none());
    }
}

#[test]
fn other_messages_have_no_names() {
    let others = [
        "",
        "00000001 93",
        "00000001 93 ffffffff 00000001 00000001 61",
        "00000001 93 00000000 00000000 00000001 61",
        // A good name before a short one, and before a bad one.
        "00000001 93 00000000 00000002 00000001 61 00000001",
        "00000001 93 00000000 00000002 00000001 61 00000001 ff",
        "00000001 80 00000000 00000001 00000001 61",
        "00000001 90 00000001 00000001 61",
        "00000001 13 00000000 00000001 00000001 61",
        "00000001 97 00000001 61",
    ];
    for text in others {
        assert_eq!(Names::open(&from_hex(text)).count(), 0, "{text}");
    }
}

#[test]
fn as_many_empty_names_as_fit() {
    let mut message = from_hex("00000001 93 00000000 00003ffc");
    message.resize(65_536, 0);
    assert_eq!(Names::open(&message).count(), 16_380);
    assert!(Names::open(&message).all(|name| name.bytes.is_empty()));
    message[12] += 1;
    assert_eq!(Names::open(&message).count(), 0);
}

#[test]
fn collected_names_lie_at_the_start() {
    let message = from_hex("00000001 93 00000000 00000003 00000002 6162 00000000 00000001 63");
    let (mut run, mut lengths) = (*b"-----", [9; 4]);
    let wanted = Some(Collected { count: 3, length: 3 });
    assert_eq!(collect_names(&message, &mut run, &mut lengths), wanted);
    assert_eq!((&run, lengths), (b"abc--", [2, 0, 1, 9]));
    // Exactly enough room.
    let (mut run, mut lengths) = (*b"---", [9; 3]);
    assert_eq!(collect_names(&message, &mut run, &mut lengths), wanted);
    assert_eq!((&run, lengths), (b"abc", [2, 0, 1]));
}

#[test]
fn names_without_room_change_nothing() {
    let message = from_hex("00000001 93 00000000 00000003 00000002 6162 00000000 00000001 63");
    let (mut run, mut lengths) = (*b"--", [9; 3]);
    assert_eq!(collect_names(&message, &mut run, &mut lengths), None);
    assert_eq!((&run, lengths), (b"--", [9; 3]));
    let (mut run, mut lengths) = (*b"---", [9; 2]);
    assert_eq!(collect_names(&message, &mut run, &mut lengths), None);
    assert_eq!((&run, lengths), (b"---", [9; 2]));
}

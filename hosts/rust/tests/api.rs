//! The typed functions: every request and every reply against its bytes, worked out by hand from document 01.
use tushalets::numbers::{refusals, types};
use tushalets::{check_version, front, list_request, read_reply, read_request, write_reply, write_request};
use tushalets::{
    Attributes, Fronted, NameRun, Names, Received, Refusal, Reply, Request, Statistics, Success, Timestamp,
    WrongVersion, LONGEST, LONGEST_LISTING, VERSION,
};

const ID: u32 = 0x0102_03f4;
const FILLING: u8 = 0xee;
const HEADER: usize = 5;

fn bytes(hex: &str) -> Vec<u8> {
    let digits: String = hex.split_whitespace().collect();
    (0..digits.len()).step_by(2).map(|at| u8::from_str_radix(&digits[at..at + 2], 16).unwrap()).collect()
}

/// The id of all messages here, and these bytes behind it.
fn message(hex: &str) -> Vec<u8> {
    [&ID.to_be_bytes()[..], &bytes(hex)].concat()
}

const PATH: &str = "/a";
const ATIME: Timestamp = Timestamp { seconds: 1, nsec: 2 };
const MTIME: Timestamp = Timestamp { seconds: 3, nsec: u32::MAX };
const METHODS: usize = 23;

/// Each method once, in the order of the types, with numbers that show where they came from; then unknown ones.
const REQUESTS: [(Request<'static>, &str); METHODS + 4] = [
    (Request::Access { path: PATH, mode: -2 }, "01 00000002 2f61 fe"),
    (Request::Getattr { path: "/" }, "02 00000001 2f"),
    (Request::Readlink { path: "/\u{e4}" }, "03 00000003 2fc3a4"),
    (Request::Symlink { target: "t", linkpath: "/l" }, "04 00000001 74 00000002 2f6c"),
    (Request::Link { old_path: "/o", new_path: "/new" }, "05 00000002 2f6f 00000004 2f6e6577"),
    (Request::Rename { old_path: "/o", new_path: "", flags: 0x81 }, "06 00000002 2f6f 00000000 81"),
    (Request::Chmod { path: PATH, mode: 0x8102_0304 }, "07 00000002 2f61 81020304"),
    (Request::Chown { path: PATH, uid: 0x0102_0304, gid: u32::MAX }, "08 00000002 2f61 01020304 ffffffff"),
    (
        Request::Truncate { path: PATH, size: 0x0102_0304_0506_0708, handle: u64::MAX },
        "09 00000002 2f61 0102030405060708 ffffffffffffffff",
    ),
    (Request::Fsync { path: PATH, is_datasync: true, handle: 9 }, "0a 00000002 2f61 01 0000000000000009"),
    (Request::Open { path: PATH, flags: i32::MIN }, "0b 00000002 2f61 80000000"),
    (Request::Mknod { path: PATH, mode: 0x2190, dev: 0x5_0000_0006 }, "0c 00000002 2f61 00002190 0000000500000006"),
    (Request::Create { path: PATH, mode: 0x1a4 }, "0d 00000002 2f61 000001a4"),
    (Request::Release { path: PATH, handle: 3 }, "0e 00000002 2f61 0000000000000003"),
    (Request::Unlink { path: "\0" }, "0f 00000001 00"),
    (
        Request::Read { path: PATH, buffer_size: 0x1000, offset: 0x100, handle: 2 },
        "10 00000002 2f61 00001000 0000000000000100 0000000000000002",
    ),
    (
        Request::Write { path: PATH, data: &[0xff, 0, 1], offset: 5, handle: 6 },
        "11 00000002 2f61 00000003 ff0001 0000000000000005 0000000000000006",
    ),
    (Request::Mkdir { path: PATH, mode: 0x1ed }, "12 00000002 2f61 000001ed"),
    (Request::Readdir { path: PATH }, "13 00000002 2f61"),
    (Request::Rmdir { path: PATH }, "14 00000002 2f61"),
    (Request::Statfs { path: "" }, "15 00000000"),
    (
        Request::Utimens { path: PATH, atime: ATIME, mtime: MTIME, handle: 5 },
        "16 00000002 2f61 0000000000000001 00000002 0000000000000003 ffffffff 0000000000000005",
    ),
    (Request::Getcreds, "17"),
    (Request::Unknown { type_number: 0x00 }, "00"),
    (Request::Unknown { type_number: 0x18 }, "18"),
    (Request::Unknown { type_number: 0x81 }, "81"),
    (Request::Unknown { type_number: 0xff }, "ff"),
];

const ATTRIBUTES: Attributes = Attributes {
    inode: 1,
    nlink: 2,
    mode: 3,
    uid: 4,
    gid: 5,
    rdev: 6,
    size: 7,
    blocks: 8,
    atime: Timestamp { seconds: 9, nsec: 10 },
    mtime: Timestamp { seconds: 11, nsec: 12 },
    ctime: Timestamp { seconds: 13, nsec: 14 },
};

const ATTRIBUTES_REPLY: &str =
    "82 00000000 0000000000000001 0000000000000002 00000003 00000004 00000005 0000000000000006
    0000000000000007 0000000000000008 0000000000000009 0000000a 000000000000000b 0000000c 000000000000000d 0000000e";

const STATISTICS: Statistics =
    Statistics { bsize: 1, frsize: 2, blocks: 3, bfree: 4, bavail: 5, files: 6, ffree: 7, namemax: u64::MAX };

const STATISTICS_REPLY: &str = "95 00000000 0000000000000001 0000000000000002 0000000000000003 0000000000000004
    0000000000000005 0000000000000006 0000000000000007 ffffffffffffffff";

/// Each success but that of readdir, for whichever way names are given.
fn successes<N>() -> Vec<(i32, Success<'static, N>, &'static str)> {
    vec![
        (0, Success::Access, "81 00000000"),
        (0, Success::Getattr(ATTRIBUTES), ATTRIBUTES_REPLY),
        (0, Success::Readlink { resolved: "/\u{e4}" }, "83 00000000 00000003 2fc3a4"),
        (0, Success::Symlink, "84 00000000"),
        (1, Success::Link, "85 00000001"),
        (0, Success::Rename, "86 00000000"),
        (0, Success::Chmod, "87 00000000"),
        (0, Success::Chown, "88 00000000"),
        (0, Success::Truncate, "89 00000000"),
        (0, Success::Fsync, "8a 00000000"),
        (0, Success::Open { handle: u64::MAX }, "8b 00000000 ffffffffffffffff"),
        (0, Success::Mknod, "8c 00000000"),
        (7, Success::Create { handle: 0x0102_0304_0506_0708 }, "8d 00000007 0102030405060708"),
        (0, Success::Release, "8e 00000000"),
        (0, Success::Unlink, "8f 00000000"),
        (3, Success::Read { data: &[0xff, 0x80, 0] }, "90 00000003 00000003 ff8000"),
        (i32::MAX, Success::Write, "91 7fffffff"),
        (0, Success::Mkdir, "92 00000000"),
        (0, Success::Rmdir, "94 00000000"),
        (0, Success::Statfs(STATISTICS), STATISTICS_REPLY),
        (0, Success::Utimens, "96 00000000"),
    ]
}

/// Each reply but that of readdir.
fn replies<N>() -> Vec<(Reply<'static, N>, &'static str)> {
    let others = [
        (Reply::Credentials { creds: "user" }, "97 00000004 75736572"),
        (Reply::Failure { type_number: types::ACCESS_REPLY, code: -2 }, "81 fffffffe"),
        (Reply::Failure { type_number: types::UTIMENS_REPLY, code: i32::MIN }, "96 80000000"),
        (Reply::UnknownResponse, "80"),
    ];
    let successes = successes().into_iter();
    successes.map(|(result, success, hex)| (Reply::Success { result, success }, hex)).chain(others).collect()
}

const NAMES: NameRun<'static> = NameRun { names: b"a\xc3\xa4bc", lengths: &[1, 0, 2, 2] };
const NAMES_RESULT: i32 = 5;
const NAMES_REPLY: &str = "93 00000005 00000004 00000001 61 00000000 00000002 c3a4 00000002 6263";

fn readdir(names: NameRun<'_>) -> Reply<'_, NameRun<'_>> {
    Reply::Success { result: NAMES_RESULT, success: Success::Readdir(names) }
}

fn names_of(message: &[u8]) -> Names<'_> {
    match read_reply(message).unwrap().body {
        Reply::Success { result: NAMES_RESULT, success: Success::Readdir(names) } => names,
        other => panic!("{other:?}"),
    }
}

/// Writes into rooms from none to more than enough: a refusal changes no byte, a finished write only those it reports.
fn written_in_every_room(expected: &[u8], write: impl Fn(&mut [u8]) -> Result<usize, Refusal>) {
    for room in 0..expected.len() + 3 {
        let mut out = vec![FILLING; room];
        match write(&mut out) {
            Ok(len) => {
                assert_eq!(out[..len], *expected);
                assert!(out[len..].iter().all(|byte| *byte == FILLING));
            }
            Err(refusal) => {
                assert!(room < expected.len(), "{refusal} with room for {room}");
                assert_eq!(refusal, Refusal { number: refusals::BUFFER_TOO_SMALL, place: 0 });
                assert!(out.iter().all(|byte| *byte == FILLING));
            }
        }
    }
}

#[test]
fn every_request_is_written_and_read_back() {
    for (request, hex) in REQUESTS {
        let message = message(hex);
        written_in_every_room(&message, |out| write_request(ID, &request, out));
        let known = message.len();
        assert_eq!(read_request(&message), Ok(Received { id: ID, known, body: request }));
        let longer = [&message[..], &[FILLING]].concat();
        assert_eq!(read_request(&longer), Ok(Received { id: ID, known, body: request }));
        assert_eq!(request.type_number(), message[4]);
    }
}

#[test]
fn every_reply_is_written_and_read_back() {
    for ((to_write, hex), (body, _)) in replies().into_iter().zip(replies()) {
        let message = message(hex);
        written_in_every_room(&message, |out| write_reply(ID, &to_write, out));
        let known = message.len();
        let expected = Received { id: ID, known, body };
        assert_eq!(read_reply(&message).as_ref(), Ok(&expected));
        assert_eq!(read_reply(&[&message[..], &[FILLING]].concat()), Ok(expected));
    }
}

#[test]
fn names_are_written_and_read_back() {
    let message = message(NAMES_REPLY);
    written_in_every_room(&message, |out| write_reply(ID, &readdir(NAMES), out));
    assert_eq!(names_of(&message).collect::<Vec<_>>(), ["a", "", "\u{e4}", "bc"]);
    assert_eq!(read_reply(&message).unwrap().known, message.len());
}

/// Every method is in the tables, and a reply has the type that its request says.
#[test]
fn types_of_requests_and_replies() {
    let known = REQUESTS.iter().take(METHODS).map(|(request, _)| request);
    assert!(known.clone().map(|request| request.type_number()).eq(types::ACCESS..=types::GETCREDS));
    assert!(known.map(|request| request.reply_type_number()).eq(types::ACCESS_REPLY..=types::GETCREDS_REPLY));
    assert_eq!(Request::Unknown { type_number: 0xff }.reply_type_number(), types::UNKNOWN_RESPONSE);

    let mut succeeding: Vec<u8> = successes::<NameRun>().iter().map(|(_, success, _)| success.type_number()).collect();
    succeeding.push(Success::Readdir(NAMES).type_number());
    succeeding.sort();
    assert!(succeeding.into_iter().eq(types::ACCESS_REPLY..=types::UTIMENS_REPLY));
}

#[test]
fn names_are_exact_and_fused() {
    let message = message(NAMES_REPLY);
    let mut names = names_of(&message);
    for left in (0..4).rev() {
        assert_eq!(names.len(), left + 1);
        assert_eq!(names.size_hint(), (left + 1, Some(left + 1)));
        assert!(names.next().is_some());
    }
    for _ in 0..3 {
        assert_eq!((names.len(), names.next()), (0, None));
    }
    assert_eq!(names_of(&message).nth(3), Some("bc"));
    assert_eq!(names_of(&message).nth(4), None);
    assert_eq!(names_of(&message).last(), Some("bc"));
}

#[test]
fn names_are_compared_and_shown_by_what_they_give() {
    let (one, other) = (message(NAMES_REPLY), message(NAMES_REPLY));
    let mut names = names_of(&one);
    assert_eq!(names, names_of(&other));
    assert_eq!(format!("{names:?}"), "[\"a\", \"\", \"\u{e4}\", \"bc\"]");
    let before = names.clone();
    names.next();
    assert_ne!(names, before);
    assert_eq!(before.count(), 4);
}

/// Where a part begins in the message it was read from.
fn place(message: &[u8], part: &[u8]) -> usize {
    let (whole, part) = (message.as_ptr_range(), part.as_ptr_range());
    assert!(whole.start <= part.start && part.end <= whole.end, "a part of the message");
    part.start as usize - whole.start as usize
}

#[test]
fn texts_data_and_names_are_parts_of_the_message() {
    let link = message("05 00000002 2f6f 00000004 2f6e6577");
    let Request::Link { old_path, new_path } = read_request(&link).unwrap().body else { panic!() };
    assert_eq!((place(&link, old_path.as_bytes()), place(&link, new_path.as_bytes())), (HEADER + 4, HEADER + 10));

    let write = message("11 00000002 2f61 00000003 ff0001 0000000000000005 0000000000000006");
    let Request::Write { path, data, .. } = read_request(&write).unwrap().body else { panic!() };
    assert_eq!((place(&write, path.as_bytes()), place(&write, data)), (HEADER + 4, HEADER + 10));

    let creds = message("97 00000004 75736572");
    let Reply::Credentials { creds: text } = read_reply(&creds).unwrap().body else { panic!() };
    assert_eq!(place(&creds, text.as_bytes()), HEADER + 4);

    let readdir = message(NAMES_REPLY);
    let places: Vec<usize> = names_of(&readdir).map(|name| place(&readdir, name.as_bytes())).collect();
    assert_eq!(places, [17, 22, 26, 32]);
}

#[test]
fn readers_refuse_by_number_and_place() {
    let oversize = vec![0; LONGEST + 1];
    let rows = [
        (read_request(&[]).err(), 1, 0, "truncated header"),
        (read_reply(&[0; HEADER - 1]).err(), 1, 0, "truncated header"),
        (read_request(&oversize).err(), 2, 0, "oversize"),
        (read_reply(&oversize).err(), 2, 0, "oversize"),
        (read_reply(&message("98 00000000")).err(), 3, 4, "unexpected type"),
        (read_request(&message("02 00000002 2f")).err(), 4, 9, "truncated"),
        (read_reply(&message("93 00000000 ffffffff")).err(), 4, 13, "truncated"),
        (read_request(&message("0f 00000001 80")).err(), 5, 9, "malformed text"),
        (read_reply(&message("83 00000000 00000002 c080")).err(), 5, 13, "malformed text"),
        (read_reply(&message("90 00000002 00000001 61")).err(), 6, 5, "data length mismatch"),
    ];
    for (refusal, number, place, name) in rows {
        let refusal = refusal.expect(name);
        assert_eq!((refusal.number, refusal.place, refusal.name()), (number, place, name));
        assert_eq!(refusal.to_string(), format!("refused {number} at {place}: {name}"));
    }
}

#[test]
fn writers_refuse_by_number_and_change_nothing() {
    let long = vec![b'a'; LONGEST];
    let read = |result, data| Reply::Success { result, success: Success::Read { data } };
    let run = |names, lengths| readdir(NameRun { names, lengths });
    let failure = |type_number, code| Reply::Failure { type_number, code };
    let rows = [
        (read(LONGEST as i32, &long), 2, "oversize"),
        (failure(types::GETCREDS_REPLY, 0), 3, "unexpected type"),
        (failure(types::UNKNOWN_RESPONSE, -1), 3, "unexpected type"),
        (failure(types::OPEN, -1), 3, "unexpected type"),
        (run(b"\xc3\xa9", &[1, 1]), 5, "malformed text"),
        (read(256, &long[..112]), 6, "data length mismatch"),
        (read(0, &long[..1]), 6, "data length mismatch"),
        (failure(types::OPEN_REPLY, 0), 8, "result sign"),
        (Reply::Success { result: -1, success: Success::Chmod }, 8, "result sign"),
        (run(b"abc", &[1, 1]), 9, "lengths mismatch"),
        (run(b"", &[u32::MAX, 1]), 9, "lengths mismatch"),
    ];
    let mut out = vec![FILLING; 2 * LONGEST];
    for (reply, number, name) in rows {
        let refusal = write_reply(ID, &reply, &mut out).expect_err(name);
        assert_eq!((refusal.number, refusal.place, refusal.name()), (number, 0, name));
    }
    for type_number in types::ACCESS..=types::GETCREDS {
        let refusal = write_request(ID, &Request::Unknown { type_number }, &mut out).unwrap_err();
        assert_eq!(refusal, Refusal { number: refusals::UNEXPECTED_TYPE, place: 0 });
    }
    let path = std::str::from_utf8(&long).unwrap();
    assert_eq!(write_request(ID, &Request::Rmdir { path }, &mut out).unwrap_err().number, refusals::OVERSIZE);
    assert!(out.iter().all(|byte| *byte == FILLING));
}

#[test]
fn the_longest_message_is_written_and_read() {
    let path = "a".repeat(LONGEST - HEADER - 4);
    let mut out = vec![FILLING; LONGEST];
    assert_eq!(write_request(ID, &Request::Rmdir { path: &path }, &mut out), Ok(LONGEST));
    assert_eq!(read_request(&out), Ok(Received { id: ID, known: LONGEST, body: Request::Rmdir { path: &path } }));
}

/// The bytes behind a negative result are not looked at.
#[test]
fn a_failure_has_no_fields() {
    let body = Reply::Failure { type_number: types::READDIR_REPLY, code: -1 };
    assert_eq!(read_reply(&message("93 ffffffff 00000001 00000001 80")), Ok(Received { id: ID, known: 9, body }));
}

#[test]
fn the_front_answers_or_hands_on() {
    let room = 9;
    let mut out = vec![FILLING; room];
    assert_eq!(front(&message("02 00000001 2f"), &mut out), Ok(Fronted::HandedOn));
    assert_eq!(front(&message("02 00000001 2f"), &mut []), Ok(Fronted::HandedOn));
    assert_eq!(out, [FILLING; 9]);
    assert_eq!(front(&[0; 4], &mut out), Err(Refusal { number: refusals::TRUNCATED_HEADER, place: 0 }));
    assert_eq!(front(&message("42"), &mut out[..4]), Err(Refusal { number: refusals::BUFFER_TOO_SMALL, place: 0 }));
    assert_eq!(out, [FILLING; 9]);
    assert_eq!(front(&message("42"), &mut out), Ok(Fronted::Stored(5)));
    assert_eq!(out, message("80 eeeeeeee"));
    assert_eq!(front(&message("0f 00000001 80"), &mut out), Ok(Fronted::Stored(9)));
    assert_eq!(out, message("8f ffffffea"));
}

#[test]
fn a_request_is_listed() {
    let mut out = [FILLING; LONGEST_LISTING];
    let len = list_request(&[0, 0, 0, 7, 1, 0, 0, 0, 2, b'/', b'a', 4], &mut out).unwrap();
    assert_eq!(&out[..len], b"access id 7\npath 2\nmode 4\nknown 12 of 12\n");
    assert!(out[len..].iter().all(|byte| *byte == FILLING));
    let len = list_request(&[], &mut out).unwrap();
    assert_eq!(&out[..len], b"refused 1 at 0\n");
    let refusal = Refusal { number: refusals::BUFFER_TOO_SMALL, place: 0 };
    assert_eq!(list_request(&[], &mut out[..len - 1]), Err(refusal));
}

#[test]
fn the_linked_version_fits() {
    assert_eq!(check_version(), Ok(()));
    assert_eq!(tushalets::raw::version(), VERSION);
    let wrong = WrongVersion { linked: 9 };
    assert_eq!(wrong.to_string(), "the linked library has version 9, this crate is written for 3");
}

#[test]
fn errors_and_messages_cross_threads() {
    fn is_error<T: std::error::Error + Send + Sync + 'static>() {}
    fn is_shared<T: Send + Sync + Clone>() {}
    is_error::<Refusal>();
    is_error::<WrongVersion>();
    is_shared::<Received<Request<'_>>>();
    is_shared::<Received<Reply<'_>>>();
}

//! Messages of every method written into a lent buffer and read back, and messages that are refused. What the writers answer
//! and leave in the buffer was written by hand into `worked_writes.txt`.

mod rows;

use rows::{assert_lines, lent, show_names, show_refusal, show_reply, show_request, show_stored};
use tushalets::numbers::types;
use tushalets::{raw, write_reply, write_request, LONGEST};
use tushalets::{Attributes, NameRun, Refusal, Reply, Request, Statistics, Success, Timestamp};

/// A reply that can be written.
type Given<'a> = Reply<'a, NameRun<'a>>;

/// Bytes of the buffer, where nothing else is said.
const ROOM: usize = 128;

/// More bytes than a message may have.
const LARGE_ROOM: usize = 65_600;

/// The bytes of a getattr request, and of a read reply, without the path and the data.
const GETATTR_FRAME: usize = 9;
const READ_FRAME: usize = 13;

const ALL_ONES: u64 = u64::MAX;

const REQUESTS: [(u32, Request<'_>); 30] = [
    (1, Request::Getattr { path: "/" }),
    (2, Request::Readlink { path: "/" }),
    (3, Request::Readdir { path: "/" }),
    (4, Request::Unlink { path: "é" }),
    (5, Request::Rmdir { path: "é" }),
    (6, Request::Statfs { path: "é" }),
    (1, Request::Symlink { target: "/a", linkpath: "b" }),
    (2, Request::Link { old_path: "/a", new_path: "b" }),
    (3, Request::Rename { old_path: "b", new_path: "/a", flags: 255 }),
    (7, Request::Access { path: "", mode: -1 }),
    (7, Request::Access { path: "/a", mode: 4 }),
    (8, Request::Fsync { path: "/a", is_datasync: true, handle: ALL_ONES }),
    (9, Request::Fsync { path: "", is_datasync: false, handle: 0 }),
    (4, Request::Chmod { path: "/a", mode: 0x1a4 }),
    (5, Request::Chown { path: "/a", uid: 1000, gid: 0xffff_ffff }),
    (6, Request::Open { path: "/a", flags: -2 }),
    (10, Request::Create { path: "/d", mode: 0x81a4 }),
    (11, Request::Mkdir { path: "/d", mode: 0x1ed }),
    (12, Request::Mknod { path: "/d", mode: 0x21b6, dev: 0x1_0000_0003 }),
    (13, Request::Truncate { path: "/", size: 0x0102_0304_0506_0708, handle: 9 }),
    (14, Request::Release { path: "/", handle: 1 }),
    (15, Request::Read { path: "/", buffer_size: 4096, offset: 0x1_0000_0000, handle: 2 }),
    (16, Request::Write { path: "/f", data: b"xyz", offset: 5, handle: 6 }),
    (17, Request::Write { path: "", data: b"", offset: 0, handle: 0 }),
    (18, Request::Utimens { path: "/", atime: time(5, 6), mtime: time(7, 0xffff_ffff), handle: 9 }),
    (0xffff_ffff, Request::Getcreds),
    (0x23, Request::Unknown { type_number: 0x42 }),
    // The types around those of the methods.
    (0x23, Request::Unknown { type_number: 0x00 }),
    (0x23, Request::Unknown { type_number: 0x18 }),
    (0x23, Request::Unknown { type_number: 0xff }),
];

const REPLIES: [(u32, Given<'_>); 14] = [
    (1, success(0, Success::Access)),
    (3, success(0x7fff_ffff, Success::Write)),
    (1, success(0, Success::Open { handle: ALL_ONES })),
    (2, success(5, Success::Create { handle: 3 })),
    (1, success(0, Success::Readlink { resolved: "/" })),
    (9, success(1, Success::Read { data: b"a" })),
    (9, success(0, Success::Read { data: b"" })),
    (1, success(7, Success::Getattr(ATTRIBUTES))),
    (4, success(0, Success::Statfs(STATISTICS))),
    (1, Reply::Failure { type_number: types::GETATTR_REPLY, code: -2 }),
    // The first and the last type that can fail.
    (1, Reply::Failure { type_number: types::ACCESS_REPLY, code: -1 }),
    (1, Reply::Failure { type_number: types::UTIMENS_REPLY, code: i32::MIN }),
    (1, Reply::Credentials { creds: "ab" }),
    (0x23, Reply::UnknownResponse),
];

/// The names of the page; three of which one is empty; none; one.
const NAMES: [(u32, Given<'_>); 4] = [
    (2, names(0, b"foobarbaz", &[3, 3, 3])),
    (2, names(0, b"ab", &[1, 0, 1])),
    (2, names(0, b"", &[])),
    (2, names(0, b"\xc3\xa9", &[2])),
];

/// So many steps are shown over the names of each.
const STEPS: usize = 4;

const ATTRIBUTES: Attributes = Attributes {
    inode: 1,
    nlink: 2,
    mode: 3,
    uid: 4,
    gid: 5,
    rdev: 6,
    size: 7,
    blocks: 8,
    atime: time(9, 10),
    mtime: time(11, 12),
    ctime: time(13, 14),
};

const STATISTICS: Statistics =
    Statistics { bsize: 1, frsize: 2, blocks: 3, bfree: 4, bavail: 5, files: 6, ffree: 7, namemax: 8 };

const fn time(seconds: u64, nsec: u32) -> Timestamp {
    Timestamp { seconds, nsec }
}

const fn success<'a>(result: i32, success: Success<'a, NameRun<'a>>) -> Given<'a> {
    Reply::Success { result, success }
}

const fn names<'a>(result: i32, names: &'a [u8], lengths: &'a [u32]) -> Given<'a> {
    success(result, Success::Readdir(NameRun { names, lengths }))
}

const fn read(result: i32, data: &[u8]) -> Given<'_> {
    success(result, Success::Read { data })
}

const fn failure(type_number: u8, code: i32) -> Given<'static> {
    Reply::Failure { type_number, code }
}

#[test]
fn answers_are_those_written_by_hand() {
    let mut shown = vec![String::from("requests, written and read back:")];
    shown.extend(REQUESTS.map(|(id, request)| written(ROOM, id, &request).show_read_back(show_request)));
    shown.push(String::from("replies, written and read back:"));
    shown.extend(REPLIES.map(|(id, reply)| replied(ROOM, id, &reply).show_read_back(show_reply)));
    shown.extend(NAMES.map(|(id, reply)| replied(ROOM, id, &reply).show_read_back(show_reply_and_names)));
    for refusals in REFUSALS {
        let (label, outcomes) = refusals();
        shown.push(String::from(label));
        shown.extend(outcomes);
    }
    assert_lines(include_str!("worked_writes.txt"), &shown);
}

fn show_reply_and_names(message: &[u8]) -> String {
    format!("{}\n  names:{}", show_reply(message), show_names(message, STEPS))
}

// ---- what a writer answered and left in the buffer

struct Outcome {
    answer: Result<usize, Refusal>,
    out: Vec<u8>,
}

impl Outcome {
    fn of(room: usize, write: impl FnOnce(&mut [u8]) -> Result<usize, Refusal>) -> Self {
        let mut out = lent(room);
        Outcome { answer: write(&mut out), out }
    }

    /// Of an exported writer.
    fn raw(room: usize, write: impl FnOnce(&mut [u8]) -> raw::Written) -> Self {
        Outcome::of(room, |out| match write(out) {
            raw::Written { number: 0, len, .. } => Ok(len),
            raw::Written { number, place, .. } => Err(Refusal { number: number as u8, place }),
        })
    }

    fn stored(&self) -> &[u8] {
        &self.out[..self.answer.unwrap_or(0)]
    }

    fn show(&self) -> String {
        let answer = match self.answer {
            Ok(_) => show_stored(self.stored()),
            Err(refusal) => show_refusal(refusal.number, refusal.place),
        };
        let len = self.stored().len();
        let rest = if self.out[len..] == lent(self.out.len())[len..] { "as before" } else { "CHANGED" };
        format!("{answer} rest {rest}")
    }

    fn show_read_back(&self, read: impl FnOnce(&[u8]) -> String) -> String {
        format!("{}\n  read back: {}", self.show(), read(self.stored()))
    }
}

fn written(room: usize, id: u32, request: &Request<'_>) -> Outcome {
    Outcome::of(room, |out| write_request(id, request, out))
}

fn replied(room: usize, id: u32, reply: &Given<'_>) -> Outcome {
    Outcome::of(room, |out| write_reply(id, reply, out))
}

/// A request without numbers. Its texts need be none.
fn written_raw(room: usize, id: u32, type_number: u8, first: &[u8], second: &[u8]) -> Outcome {
    Outcome::raw(room, |out| raw::write_request(id, type_number, &[0; 5], first, second, out))
}

/// A success without numbers and names. Its text need be none.
fn replied_raw(room: usize, id: u32, type_number: u8, result: i32, text: &[u8]) -> Outcome {
    Outcome::raw(room, |out| raw::write_reply(id, type_number, result, &[0; 14], text, &[], out))
}

// ---- what the writers refuse, and in what order they check

/// What is tried, and the answers.
type Tried = (&'static str, Vec<String>);

const REFUSALS: [fn() -> Tried; 14] = [
    unexpected_types,
    result_signs,
    lengths_mismatches,
    malformed_requests,
    malformed_replies,
    malformed_names,
    data_length_mismatches,
    buffers_too_small,
    room_for_no_header,
    oversize,
    too_many_names,
    first_checks,
    checks_of_names,
    checks_of_long,
];

fn show_all<const N: usize>(label: &'static str, outcomes: [Outcome; N]) -> Tried {
    (label, outcomes.iter().map(Outcome::show).collect())
}

fn unexpected_types() -> Tried {
    show_all(
        "write 3: unknown requests of type 01 and 17, failures of type 80 and 97",
        [
            written(ROOM, 0x23, &Request::Unknown { type_number: types::ACCESS }),
            written(ROOM, 0x23, &Request::Unknown { type_number: types::GETCREDS }),
            replied(ROOM, 1, &failure(types::UNKNOWN_RESPONSE, -2)),
            replied(ROOM, 1, &failure(types::GETCREDS_REPLY, -2)),
        ],
    )
}

fn result_signs() -> Tried {
    show_all(
        "write 8: a failure with result 0, successes with -1 and the least result",
        [
            replied(ROOM, 1, &failure(types::GETATTR_REPLY, 0)),
            replied(ROOM, 1, &success(-1, Success::Access)),
            replied(ROOM, 1, &success(i32::MIN, Success::Open { handle: 7 })),
        ],
    )
}

fn lengths_mismatches() -> Tried {
    show_all(
        "write 9: 3 bytes and lengths that sum to 2, 4, 4294967299 and nothing",
        [
            replied(ROOM, 2, &names(0, b"abc", &[1, 1])),
            replied(ROOM, 2, &names(0, b"abc", &[2, 2])),
            replied(ROOM, 2, &names(0, b"abc", &[0xffff_ffff, 4])),
            replied(ROOM, 2, &names(0, b"abc", &[])),
        ],
    )
}

fn malformed_requests() -> Tried {
    const BAD: &[u8] = b"\xc0\x80";
    show_all(
        "write 5: getattr, the first path of rename, the second of symlink, the path of write",
        [
            written_raw(ROOM, 1, types::GETATTR, BAD, b""),
            written_raw(ROOM, 1, types::RENAME, BAD, b"a"),
            written_raw(ROOM, 1, types::SYMLINK, b"a", BAD),
            written_raw(ROOM, 1, types::WRITE, BAD, b"a"),
        ],
    )
}

fn malformed_replies() -> Tried {
    const BAD: &[u8] = b"\xed\xa0\x80";
    show_all(
        "write 5: the text of readlink, of getcreds",
        [replied_raw(ROOM, 1, types::READLINK_REPLY, 0, BAD), replied_raw(ROOM, 1, types::GETCREDS_REPLY, 0, BAD)],
    )
}

fn malformed_names() -> Tried {
    show_all(
        "write 5: a character that is split over two names; not in one name",
        [replied(ROOM, 2, &names(0, b"\xc3\xa9", &[1, 1])), replied(ROOM, 2, &names(0, b"\xc3\xa9", &[2]))],
    )
}

fn data_length_mismatches() -> Tried {
    show_all(
        "write 6: read with result 256 and 112 bytes, with 0 and 1; data is not text",
        [
            replied(ROOM, 9, &read(256, &[0; 112])),
            replied(ROOM, 9, &read(0, b"a")),
            written(ROOM, 1, &Request::Write { path: "/", data: b"\xff\x80", offset: 0, handle: 0 }),
        ],
    )
}

fn buffers_too_small() -> Tried {
    show_all(
        "write 7: 10 bytes of room for messages of 10, 11, 13 and 17",
        [
            written(10, 1, &Request::Getattr { path: "/" }),
            written(10, 1, &Request::Getattr { path: "/a" }),
            replied(10, 2, &names(0, b"", &[])),
            replied(10, 1, &success(0, Success::Open { handle: 1 })),
        ],
    )
}

fn room_for_no_header() -> Tried {
    show_all(
        "write 7 with 4 bytes of room; before it come 3, 5 and 6",
        [
            replied(4, 0x23, &Reply::UnknownResponse),
            written(4, 0x23, &Request::Unknown { type_number: types::ACCESS }),
            written_raw(4, 1, types::GETATTR, b"\x80", b""),
            replied(4, 9, &read(0, b"a")),
        ],
    )
}

/// The longest message is written, and keeps the rest of a longer buffer.
fn oversize() -> Tried {
    let path = "a".repeat(LONGEST + 1 - GETATTR_FRAME);
    show_all(
        "write 2: getattr of 65536 and 65537 bytes",
        [
            written(LARGE_ROOM, 1, &Request::Getattr { path: &path[1..] }),
            written(LARGE_ROOM, 1, &Request::Getattr { path: &path }),
        ],
    )
}

fn too_many_names() -> Tried {
    let most = replied(LARGE_ROOM, 2, &names(0, b"", &[0; 16_380]));
    let more = replied(LARGE_ROOM, 2, &names(0, b"", &[0; 16_381]));
    ("write 2: readdir with 16380 and 16381 empty names", vec![most.show_read_back(show_reply), more.show()])
}

fn first_checks() -> Tried {
    show_all(
        "write 3 before 8, 8 before 5, 8 before 6",
        [
            replied(ROOM, 1, &failure(types::GETCREDS_REPLY, 0)),
            replied_raw(ROOM, 1, types::READLINK_REPLY, -1, b"\x80"),
            replied(ROOM, 9, &read(-1, b"\x80")),
        ],
    )
}

fn checks_of_names() -> Tried {
    show_all(
        "write 8 before 9, 9 before 5",
        [replied(ROOM, 2, &names(-1, b"\x80", &[2])), replied(ROOM, 2, &names(0, b"\x80", &[2]))],
    )
}

/// Messages of 65,537 bytes.
fn checks_of_long() -> Tried {
    let path = vec![0x80; LONGEST + 1 - GETATTR_FRAME];
    let data = vec![0; LONGEST + 1 - READ_FRAME];
    show_all(
        "write 5 before 2, 6 before 2, 2 before 7",
        [
            written_raw(ROOM, 1, types::GETATTR, &path, b""),
            replied(ROOM, 9, &read(1, &data)),
            replied(ROOM, 9, &read(data.len() as i32, &data)),
        ],
    )
}

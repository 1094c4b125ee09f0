//! The worked messages of document 01, and some that lie, through both readers, the names, the front and the listing. The
//! answers in `worked.txt` were written by hand.

mod rows;

use rows::{
    assert_lines, bytes, hex, lent, show_names, show_names_from, show_refusal, show_reply, show_request, show_stored,
};
use tushalets::{front, list_request, raw, Fronted, LONGEST, LONGEST_LISTING};

/// A label, and a message in hex.
type Row = (&'static str, &'static str);

const REQUESTS: [Row; 35] = [
    ("empty", ""),
    ("four bytes", "00000001"),
    ("getattr", "00000001 02 00000001 2f"),
    ("getattr and a byte behind", "00000001 02 00000001 2f ff"),
    ("getattr, short path", "00000001 02 00000002 2f"),
    ("unknown", "00000023 42"),
    ("unlink, bad text", "00000005 0f 00000001 80"),
    ("access, mode -1", "00000007 01 00000000 ff"),
    ("access, least mode", "00000007 01 00000000 80"),
    ("length ffffffff", "00000001 02 ffffffff 2f"),
    ("length that wraps to 0", "00000001 02 fffffff7 2f"),
    ("chown, gid cut", "00000001 08 00000001 2f 00000001 0000"),
    ("fsync, is_datasync 7", "00000001 0a 00000001 2f 07 ffffffffffffffff"),
    ("utimens", "00000001 16 00000001 2f 0000000000000005 00000006 0000000000000007 00000008 0000000000000009"),
    ("symlink", "00000001 04 00000001 61 00000002 6263"),
    ("symlink, second text bad", "00000001 04 00000001 61 00000001 ff"),
    ("text ed9fbf", "00000001 0f 00000003 ed9fbf"),
    ("text f48fbfbf", "00000001 0f 00000004 f48fbfbf"),
    ("text c280", "00000001 0f 00000002 c280"),
    ("text eda080", "00000001 0f 00000003 eda080"),
    ("text f4908080", "00000001 0f 00000004 f4908080"),
    ("text c080", "00000001 0f 00000002 c080"),
    ("unlink, broken behind a letter", "00000001 0f 00000004 61e28241"),
    ("access, broken off, its other byte behind", "00000001 01 00000003 6162c3 a9"),
    ("rename, second text broken behind é", "00000001 06 00000000 00000004 c3a9c328 00"),
    ("link, both texts bad", "00000001 05 00000002 61ff 00000001 80"),
    ("write", "00000001 11 00000002 2f66 00000003 78797a 0000000000000005 0000000000000006"),
    (
        "write, nothing in both runs, bytes behind",
        "00000001 11 00000000 00000000 0000000000000005 0000000000000006 ffff",
    ),
    ("write, data no text", "00000001 11 00000001 2f 00000001 80 0000000000000005 0000000000000006"),
    ("write, bad path and a data length that lies", "00000001 11 00000003 2f66ff ffffffff 78"),
    ("write, a data length that lies", "00000001 11 00000002 2f66 ffffffff 78"),
    ("write, a path length that lies", "00000001 11 ffffffff 2f66 00000000 0000000000000005 0000000000000006"),
    ("write of the page, its data read as the path", "00000001 11 00000003 78797a 0000000000000005 0000000000000006"),
    ("write of the page, four bytes behind", "00000001 11 00000003 78797a 0000000000000005 0000000000000006 00000007"),
    ("write of the page, data no text", "00000001 11 00000003 78ff7a 0000000000000005 0000000000000006"),
];

/// The page's readdir reply.
const NAMES_OF_THE_PAGE: &str = "00000002 93 00000000 00000003 00000003 666f6f 00000003 626172 00000003 62617a";

/// The page's getattr example: it has no `rdev`, and each `nsec` has five bytes.
const GETATTR_OF_THE_PAGE: &str = "00000001 82 00000000 0000000000000001 0000000000000002 000041a4 000003e8 000003e8 \
    0000000000000000 0000000000000000 0000000000000000 0000000000 0000000000000000 0000000000 0000000000000000 0000000000";

const REPLIES: [Row; 22] = [
    ("failure -2", "00000001 82 fffffffe"),
    ("failure, least result", "00000001 82 80000000 00"),
    ("getattr without attributes", "00000001 82 00000000"),
    ("read, result 2 and 1 byte", "00000009 90 00000002 00000001 61"),
    ("read, 1 byte", "00000009 90 00000001 00000001 61"),
    ("read, data cut", "00000009 90 00000002 ffffffff 61"),
    ("readdir, count ffffffff", "00000002 93 00000000 ffffffff"),
    ("readdir, count 2 and one name", "00000002 93 00000000 00000002 00000001 61"),
    ("readdir, count 0", "00000002 93 00000000 00000000"),
    ("readdir of the page", NAMES_OF_THE_PAGE),
    ("getattr of the page, 92 bytes", GETATTR_OF_THE_PAGE),
    (
        "getattr",
        "00000001 82 00000007 0000000000000001 0000000000000002 00000003 00000004 00000005 0000000000000006 \
        0000000000000007 0000000000000008 0000000000000009 0000000a 000000000000000b 0000000c 000000000000000d 0000000e",
    ),
    ("unknown response and more", "00000023 80 ffff"),
    ("type 7f", "00000023 7f"),
    ("type 98", "00000023 98"),
    ("getcreds", "00000001 97 00000002 6162"),
    ("getcreds, -22 is a length", "00000001 97 ffffffea"),
    ("readlink", "00000001 83 00000000 00000001 2f"),
    ("open", "00000001 8b 00000000 ffffffffffffffff"),
    ("readlink, broken behind €", "00000001 83 00000000 00000004 e282ac80"),
    ("getcreds, broken behind é", "00000001 97 00000004 c3a9ff61"),
    ("readdir, second name bad", "00000002 93 00000000 00000002 00000003 666f6f 00000003 62ff72"),
];

/// A label, a message, and how many steps are taken.
const NAMES: [(&str, &str, usize); 6] = [
    ("names, count 1 and two names", "00000002 93 00000000 00000001 00000001 61 00000001 62", 3),
    ("names, count 2 and one name", "00000002 93 00000000 00000002 00000001 61", 2),
    ("names, second name bad", "00000002 93 00000000 00000002 00000001 61 00000001 80", 2),
    ("names of a read reply", "00000009 90 00000001 00000001 61", 2),
    ("names of a failed readdir", "00000002 93 fffffffe 00000001 00000001 61", 2),
    ("names of an empty message", "", 2),
];

const FRONTS: [Row; 8] = [
    ("front, unknown 42", "00000023 42"),
    ("front, unknown ff", "00000023 ff"),
    ("front, unlink with bad text", "00000005 0f 00000001 80"),
    ("front, getattr with a short path", "00000001 02 00000002 2f"),
    ("front, four bytes", "00000001"),
    ("front, getattr", "00000001 02 00000001 2f"),
    ("front, write with a bad path", "00000005 11 00000001 80 00000000 0000000000000005 0000000000000006"),
    ("front, write", "00000005 11 00000001 2f 00000000 0000000000000005 0000000000000006"),
];

/// The sizes of the buffers that are lent to the front.
const ROOMS: [usize; 6] = [0, 4, 5, 8, 9, 12];

const LISTINGS: [&str; 10] = [
    "00000007 01 00000002 2f61 04",
    "00000007 01 00000000 ff",
    "00000001 0a 00000001 2f 07 ffffffffffffffff 0a",
    "00000001 16 00000001 2f 0000000000000005 00000006 0000000000000007 00000008 0000000000000009",
    "ffffffff 17",
    "00000001 11 00000002 2f66 00000003 78797a 0000000000000005 0000000000000006 00",
    "00000023 42 00",
    "00000005 0f 00000001 80",
    "0000000d 0b 00000014 2f6a6f62732f636166 e9 2f636172642d30303031 00000000",
    "",
];

#[test]
fn answers_are_those_written_by_hand() {
    let mut shown = Vec::new();
    shown.extend(REQUESTS.map(|(label, message)| format!("{label}: {}", show_request(&bytes(message)))));
    shown.extend(long_requests());
    shown.extend(REPLIES.map(|(label, message)| format!("{label}: {}", show_reply(&bytes(message)))));
    shown.push(format!("names of the page:{}", show_names(&bytes(NAMES_OF_THE_PAGE), 5)));
    shown.extend(positions());
    shown.extend(NAMES.map(|(label, message, steps)| format!("{label}:{}", show_names(&bytes(message), steps))));
    shown.extend(FRONTS.map(|(label, message)| show_front(label, &bytes(message))));
    shown.push(show_front("front, getattr of 65537 bytes", &filled("00000009 02", LONGEST + 1)));
    shown.extend(LISTINGS.map(|message| show_listing(&bytes(message))));
    assert_lines(include_str!("worked.txt"), &shown);
}

/// Steps from the position that the cells of a reading are, and from one that no reading shows.
fn positions() -> [String; 2] {
    let message = bytes(NAMES_OF_THE_PAGE);
    let [_, first, count, ..] = raw::read_reply(&message).fields;
    let from_cells = show_names_from(&message, first as usize, count as u32, 5);
    [
        format!("names of the page, from its answer:{from_cells}"),
        format!("names of the page, from a position made up:{}", show_names_from(&message, 20, 9, 4)),
    ]
}

/// A message and zeros behind it, up to this length.
fn filled(message: &str, len: usize) -> Vec<u8> {
    let mut message = bytes(message);
    message.resize(len, 0);
    message
}

/// A getcreds request and 65,531 zeros is as long as a message may be; one zero more is too long.
fn long_requests() -> [String; 2] {
    const GETCREDS: &str = "00000000 17";
    [
        format!("getcreds and 65531 zeros: {}", show_request(&filled(GETCREDS, LONGEST))),
        format!("getcreds and 65532 zeros: {}", show_request(&filled(GETCREDS, LONGEST + 1))),
    ]
}

/// A label, and a line for each size of the buffer.
fn show_front(label: &str, message: &[u8]) -> String {
    let rooms = ROOMS.map(|room| format!("  room {room}: {}\n", show_front_in(message, room)));
    format!("{label}:\n{}", rooms.concat())
}

fn show_front_in(message: &[u8], room: usize) -> String {
    let mut out = lent(room);
    let (answer, len) = match front(message, &mut out) {
        Ok(Fronted::HandedOn) => (String::from("handed on"), 0),
        Ok(Fronted::Stored(len)) => (show_stored(&out[..len]), len),
        Err(refusal) => (show_refusal(refusal.number, refusal.place), 0),
    };
    format!("{answer} rest '{}'", hex(&out[len..]))
}

fn show_listing(message: &[u8]) -> String {
    let mut out = [0; LONGEST_LISTING];
    let len = list_request(message, &mut out).expect("the buffer holds every listing");
    format!("listing:\n{}", String::from_utf8_lossy(&out[..len]))
}

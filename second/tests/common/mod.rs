//! What the tests share. Each test file uses a part of it.
#![allow(dead_code)]

pub mod records;
pub mod strings;
pub mod tables;
pub mod writes;

use second::filled::filled;
use second::hash::hash;
use second::hex::from_hex;
use second::methods::{Field, Kind, Method, METHODS};
use second::refusal::Refusal;
use second::reply::{read_reply, Reply};
use second::request::{read_request, Request};

pub fn method(name: &str) -> &'static Method {
    METHODS.iter().find(|method| method.name == name).unwrap()
}

/// Number and place of the refusal of a request given in hex.
pub fn request_refusal(text: &str) -> (u8, usize) {
    match read_request(&from_hex(text)) {
        Request::Refused(refusal) => (refusal.number, refusal.place),
        other => panic!("not refused: {other:?}"),
    }
}

pub fn reply_refusal(text: &str) -> (u8, usize) {
    match read_reply(&from_hex(text)) {
        Reply::Refused(refusal) => (refusal.number, refusal.place),
        other => panic!("not refused: {other:?}"),
    }
}

/// The known length of an accepted request or reply.
pub fn request_known(message: &[u8]) -> Option<usize> {
    match read_request(message) {
        Request::Known { known, .. } | Request::Unknown { known, .. } => Some(known),
        Request::Refused(_) => None,
    }
}

pub fn reply_known(message: &[u8]) -> Option<usize> {
    match read_reply(message) {
        Reply::Success { known, .. }
        | Reply::Failure { known, .. }
        | Reply::Credentials { known, .. }
        | Reply::UnknownResponse { known, .. } => Some(known),
        Reply::Refused(_) => None,
    }
}

/// The message of a case's body, which ends with it, from `at` on.
pub fn message_at(body: &[u8], at: usize) -> Vec<u8> {
    let whole = u32::from_be_bytes(body[at..at + 4].try_into().unwrap()) as usize;
    filled(&body[at + 5..], whole, body[at + 4])
}

/// The whole message as the cases of most ops have it.
pub fn framed(message: &[u8]) -> Vec<u8> {
    [&(message.len() as u32).to_be_bytes()[..], &[0], message].concat()
}

/// The line with its parts, made from the fields that it shows.
pub fn with_parts(names: &[&str], line: &str) -> String {
    let mut sums = Vec::new();
    for name in names {
        let shown = line.split(' ').find_map(|word| word.strip_prefix(&format!("{name}=")));
        let sum = shown.map_or("0", |part| part.rsplit(':').next().unwrap());
        sums.extend_from_slice(&sum.parse::<u64>().unwrap().to_be_bytes());
    }
    format!("{line} parts={}", hash(&sums))
}

pub const REQUEST_PARTS: [&str; 6] = ["path", "target", "linkpath", "old_path", "new_path", "data"];
pub const REPLY_PARTS: [&str; 3] = ["resolved", "data", "creds"];

/// Begin and end of each number and run of the fields, of which the first
/// begins at `at`.
pub fn elements(message: &[u8], mut at: usize, fields: &[Field]) -> Vec<(usize, usize)> {
    let mut found = Vec::new();
    for field in fields {
        let mut runs = 1;
        if let Some(width) = field.kind.width() {
            found.push((at, at + width));
            at += width;
            runs = 0;
        } else if field.kind == Kind::Names {
            runs = length_at(message, at);
            found.push((at, at + 4));
            at += 4;
        }
        for _ in 0..runs {
            let end = at + 4 + length_at(message, at);
            found.extend([(at, at + 4), (at + 4, end)]);
            at = end;
        }
    }
    found
}

pub fn length_at(message: &[u8], at: usize) -> usize {
    u32::from_be_bytes(message[at..at + 4].try_into().unwrap()) as usize
}

/// The lent buffer of a case as it was before.
pub fn lent(length: usize) -> Vec<u8> {
    (0..length).map(|index| ((index * 7 + 3) % 251) as u8).collect()
}

/// A lent buffer whose bytes all differ from their neighbours.
pub fn pattern(length: usize) -> Vec<u8> {
    (0..length).map(|index| (index % 241) as u8 ^ 0x5a).collect()
}

/// The writer is refused with this number at 0 and changes nothing.
pub fn assert_refused(
    number: u8,
    room: usize,
    write: impl Fn(&mut [u8]) -> Result<usize, Refusal>,
) {
    let mut buffer = pattern(room);
    assert_eq!(write(&mut buffer), Err(Refusal { number, place: 0 }));
    assert_eq!(buffer, pattern(room), "a refused writer changes nothing");
}

/// The writer stores exactly these bytes and leaves the rest.
pub fn assert_stored(
    bytes: &[u8],
    room: usize,
    write: impl Fn(&mut [u8]) -> Result<usize, Refusal>,
) {
    let mut buffer = pattern(room);
    assert_eq!(write(&mut buffer), Ok(bytes.len()));
    assert_eq!(&buffer[..bytes.len()], bytes);
    assert_eq!(buffer[bytes.len()..], pattern(room)[bytes.len()..], "the rest stays");
}

//! Characters that are broken off at the end of a string, with the bytes right
//! behind the string that would complete them.

use crate::hex::from_hex;
use crate::make::case::{again, listing, read, Case, Filled, Side};
use crate::make::strings::{arrivals, CHARACTERS};
use crate::store::push_run;

const ID: [u8; 4] = [0x63, 0x64, 0x65, 0x66];

/// What stands between the id and the string, in hex. Behind the string comes
/// the end of the known part, a number, or the length of another text or of
/// data.
const REQUESTS: [&str; 8] =
    ["0f", "01", "07", "16", "06", "06 00000003 6f6c64", "04 00000000", "11"];

/// The same for replies: resolved, creds, and the first, the second and the
/// last name.
const REPLIES: [&str; 5] = [
    "83 00000000",
    "97",
    "93 00000000 00000002",
    "93 00000000 00000003 00000001 61",
    "93 00000000 00000002 00000002 c3a9",
];

/// What stands in the string before the character.
pub const FRONTS: [&str; 3] = ["", "ab", "\u{e9}\u{20ac}\u{1f600}"];

/// More continuation bytes than the fields behind a string have.
const BEHIND: [u8; 40] = [0x80; 40];

pub fn add(out: &mut Vec<Case>) {
    for (shift, front) in FRONTS.iter().enumerate() {
        for (nth, broken) in broken_off(front).iter().enumerate() {
            add_broken(out, shift + nth, broken);
        }
    }
    let all: Vec<BrokenOff> = FRONTS.iter().flat_map(|front| broken_off(front)).collect();
    for text in REPLIES {
        let replies: Vec<Filled> = all.iter().map(|broken| broken.message(text)).collect();
        out.push(arrivals(&replies));
    }
}

/// In a request, in a reply, and through one more way in its turn.
fn add_broken(out: &mut Vec<Case>, turn: usize, broken: &BrokenOff) {
    let request = |turn: usize| broken.message(REQUESTS[turn % REQUESTS.len()]);
    let reply = broken.reply(turn);
    out.push(read(Side::Request, &request(turn)));
    out.push(read(Side::Reply, &reply));
    out.push(match turn % 3 {
        0 => listing(60, &request(turn + 3)),
        1 => again(Side::Reply, 60, &reply),
        _ => read(Side::Request, &request(turn + 3)),
    });
}

/// A text that ends inside a character, and the bytes that are missing.
pub struct BrokenOff {
    text: Vec<u8>,
    missing: Vec<u8>,
}

impl BrokenOff {
    /// A message with the text behind its id and these bytes. The missing
    /// bytes follow.
    fn message(&self, before: &str) -> Filled {
        let mut message = [&ID[..], &from_hex(before)].concat();
        push_run(&mut message, &self.text);
        message.extend_from_slice(&self.missing);
        message.extend_from_slice(&BEHIND);
        Filled::exact(&message)
    }

    pub fn reply(&self, turn: usize) -> Filled {
        self.message(REPLIES[turn % REPLIES.len()])
    }
}

/// Each character behind the front, broken off after each number of its bytes.
pub fn broken_off(front: &str) -> Vec<BrokenOff> {
    let mut found = Vec::new();
    for character in CHARACTERS.map(str::as_bytes) {
        for length in 1..character.len() {
            let (there, missing) = character.split_at(length);
            let text = [front.as_bytes(), there].concat();
            found.push(BrokenOff { text, missing: missing.to_vec() });
        }
    }
    found
}

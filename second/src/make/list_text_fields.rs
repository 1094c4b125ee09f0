//! Malformed second texts of requests and malformed names of readdir replies,
//! behind good ones, and in front of malformed and truncated ones.

use crate::make::case::{again, front, listing, read, Case, Filled, Side};
use crate::make::list_text::{method, names, run};
use crate::make::put::{request_draft, Put};
use crate::make::strings::arrivals;

/// The requests with two texts.
const METHODS: [&str; 3] = ["symlink", "link", "rename"];

/// Good texts and names, of several lengths.
pub const GOOD: [&[u8]; 5] =
    [b"", b"a", b"\xc3\xa9\xe2\x82\xac", b"name", b"/jobs/of/the/plant-20"];

/// Malformed texts and names: at once, behind a letter, and broken off behind
/// a character of three bytes.
pub const BAD: [&[u8]; 3] = [b"\x80", b"x\xffy", b"\xe2\x82\xac\xf0\x9f\x98"];

pub fn add(out: &mut Vec<Case>) {
    for name in METHODS {
        add_second(out, name);
        add_first_counts(out, name);
    }
    for bad in BAD {
        add_names(out, bad);
    }
    add_first_name_counts(out);
    add_late_names(out);
}

/// Only rename has flags; the other methods leave them out.
fn request(name: &str, first: &[u8], second: &[u8]) -> Filled {
    let flags = Put::Number(0x80);
    request_draft(method(name), 0x65, &[run(first), run(second), flags]).whole()
}

/// The message without so many bytes at its end.
fn cut(message: &Filled, missing: usize) -> Filled {
    Filled::padded(&message.prefix, message.whole - missing, 0)
}

/// A malformed second text behind good first ones.
fn add_second(out: &mut Vec<Case>, name: &str) {
    for (turn, good) in GOOD.iter().enumerate() {
        let bad = BAD[turn % BAD.len()];
        out.push(read(Side::Request, &request(name, good, bad)));
    }
    out.push(listing(60, &request(name, GOOD[1], BAD[1])));
    out.push(again(Side::Request, 60, &request(name, GOOD[2], BAD[2])));
    out.push(front(13, &request(name, GOOD[3], BAD[2])));
}

/// A malformed first text in front of another malformed one, of a truncated
/// one, and of a truncated length. A truncated second text is refused as such.
fn add_first_counts(out: &mut Vec<Case>, name: &str) {
    let (first, second) = (b"ab\xc3", b"\xffcdefgh");
    let message = request(name, first, second);
    for missing in [0, 3, second.len() + 3] {
        out.push(read(Side::Request, &cut(&message, missing)));
    }
    out.push(listing(60, &message));
    out.push(read(Side::Request, &cut(&request(name, b"ab", second), 3)));
}

/// The good names, with a malformed one in place of the nth.
pub fn spoiled(nth: usize, bad: &[u8]) -> Filled {
    let mut list = GOOD;
    list[nth] = bad;
    names(&list)
}

/// A malformed name at every place of a list.
fn add_names(out: &mut Vec<Case>, bad: &[u8]) {
    let replies: Vec<Filled> = (0..GOOD.len()).map(|nth| spoiled(nth, bad)).collect();
    for (nth, reply) in replies.iter().enumerate() {
        out.push(read(Side::Reply, reply));
        if nth % 2 == 1 {
            out.push(again(Side::Reply, 100, reply));
        }
    }
    out.push(arrivals(&replies));
}

/// A malformed name in front of a malformed one, and in front of truncated
/// ones; a truncated name that is malformed as well.
fn add_first_name_counts(out: &mut Vec<Case>) {
    for nth in 1..GOOD.len() {
        let mut list = GOOD;
        (list[nth - 1], list[nth]) = (BAD[1], BAD[2]);
        out.push(read(Side::Reply, &names(&list)));
        out.push(read(Side::Reply, &cut(&spoiled(nth - 1, BAD[2]), 1)));
    }
    let last = GOOD.len() - 1;
    out.push(read(Side::Reply, &cut(&spoiled(last, BAD[1]), 1)));
}

/// The last name is malformed behind many good ones.
fn add_late_names(out: &mut Vec<Case>) {
    for count in [15, 63, 200, 1_000] {
        let mut list = vec![&b"n"[..]; count];
        list.push(BAD[1]);
        out.push(read(Side::Reply, &names(&list)));
    }
}

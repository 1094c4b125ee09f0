//! Messages with a text in one of their strings, and tables that wait for
//! such replies.

use crate::make::call::{calls, Call};
use crate::make::case::{Case, Filled};
use crate::make::list_shown_requests::with_run;
use crate::make::list_text::{method, names, run};
use crate::make::put::reply_draft;
use crate::make::tables::{fitting, free_with};
use crate::methods::{Kind, Method, METHODS, REPLY_OFFSET};
use crate::outstanding::Record;
use crate::refusal::TYPE_PLACE;

/// Bytes that begin with no whole character, whatever character follows them.
pub const BROKEN: [&[u8]; 8] = [
    b"\x80",
    b"\xc0",
    b"\xff",
    b"\xc3",
    b"\xe2\x82A",
    b"\xed\xa0\x80",
    b"\xf4\x90\x80\x80",
    b"\xf0\x9f\x98",
];

/// A character of each length.
pub const CHARACTERS: [&str; 4] = ["a", "\u{e9}", "\u{20ac}", "\u{1f600}"];

const ID: u32 = 0x6162_6364;

/// The strings of all requests: the method, and the number of the field.
fn request_strings() -> Vec<(&'static Method, usize)> {
    let mut strings = Vec::new();
    for method in &METHODS {
        for (index, field) in method.request.iter().enumerate() {
            if field.kind == Kind::Text {
                strings.push((method, index));
            }
        }
    }
    strings
}

/// A request with the text in one of its strings; the turns go through all
/// strings of all methods.
pub fn request_with(turn: usize, text: &[u8]) -> Filled {
    let strings = request_strings();
    let (method, index) = strings[turn % strings.len()];
    Filled::exact(&with_run(method, index, text))
}

/// How many kinds of replies `reply_with` makes.
pub const REPLY_STRINGS: usize = 5;

/// A reply with the text in one of its strings. A name is the first, a middle
/// or the last one.
pub fn reply_with(turn: usize, text: &[u8]) -> Filled {
    let success = |name| reply_draft(method(name), ID, 0, &[run(text)]).whole();
    match turn % REPLY_STRINGS {
        0 => success("readlink"),
        1 => success("getcreds"),
        2 => names(&[text, b"n"]),
        3 => names(&[b"first", b"", text, b"n"]),
        _ => names(&[b"\xc3\xa9\xe2\x82\xac", text]),
    }
}

/// Id and type of the request that a reply is for.
fn request_of(reply: &Filled) -> (u32, u8) {
    let bytes = &reply.prefix;
    let id = u32::from_be_bytes(bytes[..TYPE_PLACE].try_into().unwrap());
    (id, bytes[TYPE_PLACE] - REPLY_OFFSET)
}

/// A table in which the request is outstanding that the reply is for.
pub fn waiting_for(reply: &Filled) -> Vec<Record> {
    let (id, kind) = request_of(reply);
    free_with(&[(7, id ^ 1, kind), (40, id, kind)])
}

/// Replies to one request that are refused one after another, and then the
/// accepted one.
pub fn arrivals(replies: &[Filled]) -> Case {
    let (id, kind) = request_of(&replies[0]);
    let mut list: Vec<Call> = replies.iter().cloned().map(Call::Arrive).collect();
    list.extend([Call::Look(id), fitting(id, kind), Call::Look(id)]);
    calls(&waiting_for(&replies[0]), &list)
}

//! Bytes behind the known part change nothing; every cut of it is refused
//! where the first number or run begins that is no longer whole.

mod common;

use common::*;
use second::make::fixed_list;
use second::methods::{method_of_reply, method_of_request, Field, GETCREDS};
use second::names::Names;
use second::refusal::{Refusal, LONGEST};
use second::reply::{read_reply, Reply};
use second::request::{read_request, Request};

/// The messages of all reading cases of the fixed list, not too long.
fn messages(op: &str) -> Vec<Vec<u8>> {
    let messages = fixed_list(op).into_iter().map(|case| message_at(&case.body, 0));
    messages.filter(|message| message.len() < 1_000).collect()
}

const TAILS: [&[u8]; 5] = [b"", b"\0", b"\xff\xff\xff\xff", b"\x80", &[7; 300]];

/// The known part with each tail, and filled up to the greatest length.
fn longer_ones(known: &[u8]) -> Vec<Vec<u8>> {
    let mut longer: Vec<Vec<u8>> = TAILS.iter().map(|tail| [known, tail].concat()).collect();
    for (whole, fill) in [(LONGEST, 0), (LONGEST, 0xff), (LONGEST - 1, 0x61)] {
        longer.push(second::filled::filled(known, whole, fill));
    }
    longer
}

/// The refusal of the first `length` bytes of a message with these numbers
/// and runs behind the header.
fn cut_refusal(elements: &[(usize, usize)], length: usize) -> Refusal {
    if length < 5 {
        return Refusal { number: 1, place: 0 };
    }
    let place = elements.iter().find(|element| element.1 > length).unwrap().0;
    Refusal { number: 4, place }
}

fn request_elements(message: &[u8]) -> Vec<(usize, usize)> {
    let fields: &[Field] = method_of_request(message[4]).map_or(&[], |method| method.request);
    elements(message, 5, fields)
}

fn reply_elements(message: &[u8]) -> Vec<(usize, usize)> {
    let Some(method) = method_of_reply(message[4]) else {
        return Vec::new();
    };
    if method.number == GETCREDS {
        return elements(message, 5, method.reply);
    }
    let mut found = vec![(5, 9)];
    if message[5] < 0x80 {
        found.extend(elements(message, 9, method.reply));
    }
    found
}

#[test]
fn requests() {
    let mut accepted = 0;
    for message in messages("q") {
        let Some(known) = request_known(&message) else {
            continue;
        };
        accepted += 1;
        for longer in longer_ones(&message[..known]) {
            assert_eq!(read_request(&longer), read_request(&message));
        }
        let elements = request_elements(&message);
        for length in 0..known {
            let wanted = Request::Refused(cut_refusal(&elements, length));
            assert_eq!(read_request(&message[..length]), wanted);
        }
    }
    assert!(accepted > 1_000);
}

#[test]
fn replies() {
    let mut accepted = 0;
    for message in messages("p") {
        let Some(known) = reply_known(&message) else {
            continue;
        };
        accepted += 1;
        for longer in longer_ones(&message[..known]) {
            assert_eq!(read_reply(&longer), read_reply(&message));
            assert!(Names::open(&longer).eq(Names::open(&message)));
        }
        let elements = reply_elements(&message);
        for length in 0..known {
            let wanted = Reply::Refused(cut_refusal(&elements, length));
            assert_eq!(read_reply(&message[..length]), wanted);
            assert_eq!(Names::open(&message[..length]).count(), 0);
        }
    }
    assert!(accepted > 600);
}

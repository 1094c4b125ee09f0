//! Random short messages for what an answer's own functions show.

use crate::answer::LONGEST_SHOWN;
use crate::make::case::{shown, Case, Side};
use crate::make::prng::Prng;
use crate::make::put::{reply_draft, request_draft, Put};
use crate::make::random_messages::{message, mutate};
use crate::make::random_values::{id, puts, text};
use crate::methods::{method_of_request, METHODS, READDIR};
use crate::names::Names;
use crate::reply::{read_reply, Reply};
use crate::request::{read_request, Request};
use crate::store::header;

/// The cases stay small.
const LONGEST_MESSAGE: usize = 300;

/// More than the list of lengths holds.
const MOST_NAMES: usize = 20;

/// Longer than the texts of other random cases.
const LONGEST_TEXT: usize = 120;

/// So many of a hundred texts are malformed.
const BAD: usize = 1;

pub fn case(prng: &mut Prng) -> Case {
    let side = prng.pick(&[Side::Request, Side::Reply]);
    let message = short_message(prng, side);
    let needed = needed(prng, side, &message);
    let room = room(prng, needed);
    shown(side, room, &message)
}

/// Around the room that is needed.
fn room(prng: &mut Prng, needed: usize) -> usize {
    match prng.below(20) {
        0..=7 => needed,
        8..=10 => needed.saturating_sub(1),
        11..=12 => 0,
        13..=14 => prng.below(needed + 1),
        15 => LONGEST_SHOWN,
        _ => needed + prng.between(1, 60),
    }
}

fn short_message(prng: &mut Prng, side: Side) -> Vec<u8> {
    loop {
        let message = match prng.below(100) {
            0..=7 => beginning(prng),
            8..=39 if side == Side::Reply => directory(prng),
            8..=29 => longer_texts(prng),
            _ => message(prng, side).bytes(),
        };
        if message.len() <= LONGEST_MESSAGE {
            return message;
        }
    }
}

/// A header of any type with few zeros behind it, or a part of a header.
fn beginning(prng: &mut Prng) -> Vec<u8> {
    let mut message = header(id(prng), prng.byte());
    message.resize(prng.below(20), 0);
    message
}

/// A request with texts and data of all lengths.
fn longer_texts(prng: &mut Prng) -> Vec<u8> {
    let method = &METHODS[prng.below(METHODS.len())];
    let mut puts = puts(prng, method.request, BAD);
    for put in &mut puts {
        if let Put::Run(run) = put {
            run.whole = prng.below(LONGEST_TEXT + 1);
            run.fill = prng.pick(b"\0a/");
        }
    }
    request_draft(method, id(prng), &puts).bytes
}

/// A readdir reply, most often a success that is whole.
fn directory(prng: &mut Prng) -> Vec<u8> {
    let count = prng.below(MOST_NAMES + 1);
    let empty = prng.pick(&[0, 20, 50, 100]);
    let name = |_| if prng.chance(empty) { Vec::new() } else { text(prng, BAD) };
    let names = (0..count).map(name).collect();
    let result = prng.pick(&[0, 0, 0, 0, 1, i32::MAX, -2]);
    let method = method_of_request(READDIR).unwrap();
    let mut draft = reply_draft(method, id(prng), result, &[Put::Names(names)]);
    if prng.chance(20) {
        mutate(prng, &mut draft);
    }
    draft.bytes
}

/// The bytes of the message that is written again, or those of its names.
fn needed(prng: &mut Prng, side: Side, message: &[u8]) -> usize {
    if side == Side::Reply {
        return match read_reply(message) {
            Reply::Success { method, .. } if method.number == READDIR && prng.chance(50) => {
                Names::open(message).map(|name| name.bytes.len()).sum()
            }
            Reply::Success { known, .. } => known,
            _ => message.len(),
        };
    }
    match read_request(message) {
        Request::Known { known, .. } => known,
        _ => message.len(),
    }
}

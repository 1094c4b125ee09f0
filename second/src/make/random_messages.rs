//! Random messages: good ones, mutated ones and very long ones.

use crate::make::case::{Filled, Side};
use crate::make::prng::Prng;
use crate::make::put::{good_result, reply_draft, request_draft, Draft, Put};
use crate::make::random_values::{id, number, puts, result, text};
use crate::make::writes::old_row;
use crate::methods::{method_of_request, Method, METHODS, READ, READDIR};
use crate::store::{header, push, push_run};

/// So many of a hundred texts are bad.
const BAD: usize = 7;

/// So many of a hundred requests are writes of the page's row.
const OLD_WRITES: usize = 2;

/// The most bytes behind such a write.
const MOST_BEHIND: usize = 24;

pub fn message(prng: &mut Prng, side: Side) -> Filled {
    if prng.chance(1) {
        return long(prng, side);
    }
    let draft = draft(prng, side);
    damaged(prng, draft)
}

/// The message of a draft with changes in it, or with bytes behind it; some
/// stay as they are.
pub fn damaged(prng: &mut Prng, mut draft: Draft) -> Filled {
    // Many names are mostly left whole, or hardly one such list is accepted.
    let spared = draft.lengths.len() > 5 && prng.chance(70);
    let changes = if spared { 0 } else { prng.pick(&[0, 0, 0, 1, 1, 1, 2, 3]) };
    for _ in 0..changes {
        mutate(prng, &mut draft);
    }
    let bytes = &draft.bytes;
    match prng.below(100) {
        0..=9 => Filled::padded(bytes, bytes.len() + prng.between(1, 40), prng.byte()),
        10 => Filled::padded(bytes, prng.between(65_530, 65_540), prng.byte()),
        _ => Filled::exact(bytes),
    }
}

fn draft(prng: &mut Prng, side: Side) -> Draft {
    let id = id(prng);
    if side == Side::Request {
        if prng.chance(OLD_WRITES) {
            return old_write(prng, id);
        }
        let method = &METHODS[prng.below(METHODS.len())];
        let puts = puts(prng, method.request, BAD);
        return request_draft(method, id, &puts);
    }
    let method = reply_method(prng);
    reply(prng, method, id, BAD)
}

/// A write of the page's row, without a path, most often with data that can be
/// read as one. With bytes behind it some are accepted.
fn old_write(prng: &mut Prng, id: u32) -> Draft {
    let method = old_row();
    let mut puts = puts(prng, method.request, BAD);
    if prng.chance(80) {
        puts[0] = Put::Run(Filled::exact(&text(prng, BAD)));
    }
    let mut draft = request_draft(&method, id, &puts);
    if prng.chance(50) {
        let more = prng.between(1, MOST_BEHIND);
        draft.bytes.resize(draft.bytes.len() + more, prng.byte());
    }
    draft
}

/// A reply to a request of this method, with results of all kinds. So many of
/// a hundred texts are bad.
pub fn reply(prng: &mut Prng, method: &Method, id: u32, bad: usize) -> Draft {
    let puts = puts(prng, method.reply, bad);
    let wanted = if prng.chance(60) {
        good_result(method, &puts)
    } else if method.number == READ && prng.chance(60) {
        good_result(method, &puts) + prng.pick(&[-1, 1, 256])
    } else {
        result(prng)
    };
    reply_draft(method, id, wanted, &puts)
}

/// Most often a method whose replies have fields, readdir before all.
pub fn reply_method(prng: &mut Prng) -> &'static Method {
    if prng.chance(30) {
        return method_of_request(READDIR).unwrap();
    }
    let with_fields: Vec<&Method> = METHODS.iter().filter(|row| !row.reply.is_empty()).collect();
    if prng.chance(70) {
        prng.pick(&with_fields)
    } else {
        &METHODS[prng.below(METHODS.len())]
    }
}

/// Another type, most often of the same side.
fn near_type(prng: &mut Prng, kind: u8) -> u8 {
    if prng.chance(70) {
        kind & 0x80 | prng.byte() & 0x1f
    } else {
        prng.byte()
    }
}

pub fn mutate(prng: &mut Prng, draft: &mut Draft) {
    let bytes = &mut draft.bytes;
    let at = prng.below(bytes.len().max(1));
    match prng.below(10) {
        0 => bytes.truncate(at),
        1 => {
            let more = prng.between(1, 12);
            bytes.extend((0..more).map(|_| prng.byte()));
        }
        2 => bytes.insert(at, prng.byte()),
        3 if at < bytes.len() => {
            bytes.remove(at);
        }
        4 if bytes.len() > 4 => bytes[4] = near_type(prng, bytes[4]),
        5 if at < bytes.len() => bytes[at] ^= 1 << prng.below(8),
        6 if at < bytes.len() => bytes[at] = prng.byte(),
        _ => lie(prng, draft),
    }
}

/// Changes one of the lengths or counts.
fn lie(prng: &mut Prng, draft: &mut Draft) {
    if draft.lengths.is_empty() {
        return;
    }
    let place = prng.pick(&draft.lengths);
    let start = place + 4;
    if start > draft.bytes.len() {
        return;
    }
    let found = u32::from_be_bytes(draft.bytes[place..start].try_into().unwrap());
    let left = (draft.bytes.len() - start) as u32;
    let lie = match prng.below(7) {
        0 => found.wrapping_sub(1),
        1 => found.wrapping_add(1),
        2 => left,
        3 => left + 1,
        4 => 0u32.wrapping_sub(start as u32).wrapping_add(prng.below(20) as u32),
        5 => prng.below(20) as u32,
        _ => number(prng) as u32,
    };
    draft.bytes[place..start].copy_from_slice(&lie.to_be_bytes());
}

/// A message around the greatest length whose first text, data or list goes
/// to its end or nearly so; of two texts, or a text and data, it may be the
/// second.
fn long(prng: &mut Prng, side: Side) -> Filled {
    let method: &Method = &METHODS[prng.below(METHODS.len())];
    let whole = prng.between(65_530, 65_538);
    let rest = prng.pick(&[0, 0, 1, 4, 8, 16, 20, 40]);
    let mut prefix = header(id(prng), method.number);
    if side == Side::Request {
        let second = method.request.get(1).is_some_and(|field| field.kind.width().is_none());
        if second && prng.chance(50) {
            push_run(&mut prefix, &text(prng, 0));
        }
    } else {
        prefix = header(id(prng), method.reply_number());
        if prng.chance(80) {
            push(&mut prefix, 4, if prng.chance(50) { 0 } else { (whole - 13 - rest) as u64 });
        }
    }
    let length = whole - prefix.len() - 4 - rest;
    push(&mut prefix, 4, length as u64);
    let fill = prng.pick(&[0, b'a', 0x80, 0xff]);
    Filled::padded(&prefix, whole, fill)
}

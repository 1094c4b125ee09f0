//! Random cases of the writers.

use crate::make::case::{
    write_failure, write_getcreds, write_readdir, write_unknown, write_unknown_response, Case,
    Filled,
};
use crate::make::prng::Prng;
use crate::make::put::{good_result, size, writer_request, writer_success, Put};
use crate::make::random_messages::reply_method;
use crate::make::random_values::{id, names, number, puts, result, text};
use crate::methods::{GETCREDS, METHODS, READDIR};

/// So many of a hundred texts are bad.
const BAD: usize = 10;

/// A buffer's length, most often near the one needed.
pub fn room(prng: &mut Prng, needed: usize) -> usize {
    let room = match prng.below(100) {
        0..=29 => needed,
        30..=44 => needed.saturating_sub(1),
        45..=54 => needed + 1,
        55..=64 => prng.below(needed + 1),
        65..=68 => 0,
        69..=70 => prng.between(65_530, 70_000),
        _ => needed + prng.below(60),
    };
    room.min(70_000)
}

/// Now and then makes a text or data very long.
fn stretch(prng: &mut Prng, puts: &mut [Put]) {
    for put in puts {
        if let Put::Run(run) = put {
            if prng.chance(2) {
                run.whole = prng.between(65_480, 65_540);
                run.fill = prng.pick(&[0, b'a', b'/', 0x80]);
            }
        }
    }
}

pub fn request(prng: &mut Prng) -> Case {
    let method = &METHODS[prng.below(METHODS.len())];
    let mut puts = puts(prng, method.request, BAD);
    stretch(prng, &mut puts);
    let room = room(prng, 5 + size(method.request, &puts));
    writer_request(method, room, id(prng), &puts)
}

pub fn success(prng: &mut Prng) -> Case {
    let mut method = reply_method(prng);
    while method.number == READDIR || method.number == GETCREDS {
        method = reply_method(prng);
    }
    let mut puts = puts(prng, method.reply, BAD);
    stretch(prng, &mut puts);
    let good = good_result(method, &puts);
    let wanted = match prng.below(10) {
        0..=5 => good,
        6 => good + 1,
        _ => result(prng),
    };
    let room = room(prng, 9 + size(method.reply, &puts));
    writer_success(method, room, id(prng), wanted, &puts)
}

pub fn readdir(prng: &mut Prng) -> Case {
    let names = names(prng, BAD);
    let mut lengths: Vec<u32> = names.iter().map(|name| name.len() as u32).collect();
    let run = names.concat();
    if prng.chance(35) {
        spoil_lengths(prng, &mut lengths);
    }
    let mut filled = Filled::exact(&run);
    if prng.chance(2) && !lengths.is_empty() {
        // The last name is stretched to about the greatest length.
        let needed = 13 + 4 * lengths.len();
        let more = prng.between(65_530, 65_540).saturating_sub(needed + run.len());
        filled = Filled::padded(&run, run.len() + more, prng.pick(&[0, b'n', 0x80]));
        let last = lengths.len() - 1;
        lengths[last] = lengths[last].wrapping_add(more as u32);
    }
    let needed = 13 + 4 * lengths.len() + filled.whole;
    let wanted = if prng.chance(80) { 0 } else { result(prng) };
    write_readdir(room(prng, needed), id(prng), wanted, &filled, &lengths)
}

/// Moves bytes between two names, or makes the sum wrong, also by a wrap.
fn spoil_lengths(prng: &mut Prng, lengths: &mut Vec<u32>) {
    if lengths.is_empty() || prng.chance(15) {
        lengths.push(prng.pick(&[0, 1, 0xffff_ffff]));
        return;
    }
    let first = prng.below(lengths.len());
    let second = prng.below(lengths.len());
    let moved = match prng.below(4) {
        0 => number(prng) as u32,
        _ => 1,
    };
    lengths[first] = lengths[first].wrapping_sub(moved);
    if prng.chance(75) {
        lengths[second] = lengths[second].wrapping_add(moved);
    }
}

pub fn small(prng: &mut Prng) -> Case {
    let id = id(prng);
    match prng.below(4) {
        0 => write_unknown(room(prng, 5), id, prng.byte()),
        1 => write_unknown_response(room(prng, 5), id),
        2 => {
            let kind = if prng.chance(85) { prng.between(0x81, 0x96) as u8 } else { prng.byte() };
            let code = if prng.chance(50) { -(prng.below(130) as i32) } else { result(prng) };
            write_failure(room(prng, 9), id, kind, code)
        }
        _ => {
            let mut creds = [Put::Run(Filled::exact(&text(prng, BAD)))];
            stretch(prng, &mut creds);
            let [Put::Run(creds)] = creds else { unreachable!() };
            write_getcreds(room(prng, 9 + creds.whole), id, &creds)
        }
    }
}

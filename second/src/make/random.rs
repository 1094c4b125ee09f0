//! One random case.

use crate::listing::list_request;
use crate::make::case::{again, front, listing, read, Case, Side};
use crate::make::prng::Prng;
use crate::make::random_messages::message;
use crate::make::random_writers;

pub fn case(prng: &mut Prng) -> Case {
    match prng.below(100) {
        0..=24 => read(Side::Request, &message(prng, Side::Request)),
        25..=49 => read(Side::Reply, &message(prng, Side::Reply)),
        50..=55 => random_listing(prng),
        56..=63 => random_front(prng),
        64..=71 => random_writers::request(prng),
        72..=78 => random_writers::success(prng),
        79..=84 => random_writers::readdir(prng),
        85..=89 => random_writers::small(prng),
        _ => random_again(prng),
    }
}

fn random_listing(prng: &mut Prng) -> Case {
    let message = message(prng, Side::Request);
    let needed = list_request(&message.bytes()).len();
    listing(random_writers::room(prng, needed), &message)
}

fn random_front(prng: &mut Prng) -> Case {
    let message = message(prng, Side::Request);
    let room = if prng.chance(75) { prng.below(11) } else { random_writers::room(prng, 9) };
    front(room, &message)
}

fn random_again(prng: &mut Prng) -> Case {
    let side = prng.pick(&[Side::Request, Side::Reply]);
    let message = message(prng, side);
    again(side, random_writers::room(prng, message.whole), &message)
}

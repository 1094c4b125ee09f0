//! Random types of requests and replies, and replies of these types.

use crate::make::case::Filled;
use crate::make::prng::Prng;
use crate::make::random_messages::{damaged, reply};
use crate::make::tables::UNKNOWN_TYPES;
use crate::methods::{
    method_of_reply, method_of_request, Method, METHODS, REPLY_OFFSET, UNKNOWN_RESPONSE,
};
use crate::outstanding::TYPE_LIMIT;
use crate::refusal::LONGEST;
use crate::store::header;

/// So many of a hundred texts are bad: few replies have a text.
const BAD: usize = 30;

/// A type that may be outstanding, most often a method's.
pub fn request_type(prng: &mut Prng) -> u8 {
    match prng.below(100) {
        0..=84 => METHODS[prng.below(METHODS.len())].number,
        85..=89 => prng.pick(&UNKNOWN_TYPES),
        _ => prng.byte() % TYPE_LIMIT,
    }
}

/// A type that no outstanding request has.
pub fn bad_type(prng: &mut Prng) -> u8 {
    if prng.chance(30) {
        prng.pick(&[TYPE_LIMIT, u8::MAX])
    } else {
        prng.byte() | TYPE_LIMIT
    }
}

/// The type of a reply to a request of this type, which most often fits.
pub fn reply_type(prng: &mut Prng, kind: u8) -> u8 {
    match prng.below(100) {
        0..=9 => UNKNOWN_RESPONSE,
        10..=21 => request_type(prng) + REPLY_OFFSET,
        22..=23 => prng.byte(),
        _ => method_of_request(kind).map_or(UNKNOWN_RESPONSE, Method::reply_number),
    }
}

/// A reply of this type. Some are damaged, some are of the greatest length or
/// one byte longer.
pub fn answer(prng: &mut Prng, id: u32, kind: u8) -> Filled {
    let Some(method) = method_of_reply(kind) else {
        let bare = header(id, kind);
        return Filled::padded(&bare, bare.len() + prng.pick(&[0, 0, 1, 9]), prng.byte());
    };
    let draft = reply(prng, method, id, BAD);
    match prng.below(100) {
        0..=34 => damaged(prng, draft),
        35..=36 => Filled::padded(&draft.bytes, LONGEST + prng.pick(&[0, 1]), prng.byte()),
        _ => draft.whole(),
    }
}

/// The message with another id, where it has a whole one.
pub fn with_id(mut message: Filled, id: u32) -> Filled {
    if let Some(place) = message.prefix.get_mut(..4) {
        place.copy_from_slice(&id.to_be_bytes());
    }
    message
}

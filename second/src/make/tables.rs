//! Tables and replies that the lists of the table share.

use crate::make::call::Call;
use crate::make::case::{Filled, Side};
use crate::make::put::side_draft;
use crate::make::styles::{puts, Style};
use crate::methods::{method_of_request, Method, METHODS, UNKNOWN_RESPONSE};
use crate::outstanding::{Record, RECORDS};
use crate::store::{header, push_signed};

/// An id that no record of `held` has. It differs from one of them in a
/// middle byte alone.
pub const OTHER_ID: u32 = 0x0100_0101;

/// Request types without a method: the ends of their ranges, and one between.
pub const UNKNOWN_TYPES: [u8; 4] = [0x00, 0x18, 0x42, 0x7f];

/// The id that a record of `held` has. Some differ in their first byte alone,
/// some in their last.
pub fn id_at(place: usize) -> u32 {
    let (high, low) = (place / 8 + 1, place % 8 + 1);
    (high << 24 | low) as u32
}

/// The type that a record of `held` has.
pub fn kind_at(place: usize) -> u8 {
    METHODS[place % METHODS.len()].number
}

fn held_at(place: usize) -> Record {
    Record::Held { id: id_at(place), kind: kind_at(place) }
}

pub fn free(length: usize) -> Vec<Record> {
    vec![Record::Free; length]
}

/// Every record holds a request.
pub fn held(length: usize) -> Vec<Record> {
    (0..length).map(held_at).collect()
}

/// A sound table whose first records hold requests.
pub fn first_held(count: usize) -> Vec<Record> {
    let mut records = held(count);
    records.resize(RECORDS, Record::Free);
    records
}

/// A full table but for the records at these places.
pub fn held_without(places: &[usize]) -> Vec<Record> {
    let mut records = held(RECORDS);
    places.iter().for_each(|place| records[*place] = Record::Free);
    records
}

/// A free table but for these requests at their places.
pub fn free_with(requests: &[(usize, u32, u8)]) -> Vec<Record> {
    let mut records = free(RECORDS);
    for (place, id, kind) in requests {
        records[*place] = Record::Held { id: *id, kind: *kind };
    }
    records
}

pub fn enter(id: u32, kind: u8) -> Call {
    Call::Enter { id, kind }
}

/// An accepted reply to a request of this method.
pub fn success(method: &Method, id: u32) -> Call {
    Call::Arrive(success_message(method, id, Style::Counting))
}

pub fn success_message(method: &Method, id: u32, style: Style) -> Filled {
    side_draft(Side::Reply, method, id, &puts(method.reply, style)).whole()
}

pub fn failure(kind: u8, id: u32, result: i32) -> Call {
    let mut message = header(id, kind);
    push_signed(&mut message, 4, result);
    Call::Arrive(Filled::exact(&message))
}

pub fn unknown_response(id: u32) -> Call {
    Call::Arrive(Filled::exact(&header(id, UNKNOWN_RESPONSE)))
}

/// An accepted reply to a request of this type: the unknown response where
/// the type has no method.
pub fn fitting(id: u32, kind: u8) -> Call {
    Call::Arrive(fitting_message(id, kind))
}

/// The same reply, cut or filled up with zeros to a whole length.
pub fn fitting_of(whole: usize, id: u32, kind: u8) -> Call {
    Call::Arrive(Filled { whole, ..fitting_message(id, kind) })
}

fn fitting_message(id: u32, kind: u8) -> Filled {
    match method_of_request(kind) {
        Some(method) => success_message(method, id, Style::Counting),
        None => Filled::exact(&header(id, UNKNOWN_RESPONSE)),
    }
}

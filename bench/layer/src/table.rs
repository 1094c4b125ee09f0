//! An ordinary Rust table of outstanding requests, written from document 02: a slice of options, loops and iterators.
use crate::ordinary::reading::{Names, TYPE_PLACE};
use crate::ordinary::{read_reply, refuse};
use tushalets::numbers::{refusals, types};
use tushalets::{Received, Refusal, Reply, RECORDS};

/// A request that waits for its reply.
#[derive(Clone, Copy, Debug, PartialEq, Eq)]
pub struct Entry {
    pub id: u32,
    pub type_number: u8,
}

/// A record is free, or holds an entry.
pub type Record = Option<Entry>;

/// Enters a request into the first free record.
#[inline(always)]
pub fn enter(records: &mut [Record], id: u32, type_number: u8) -> Result<(), Refusal> {
    check_sound(records)?;
    if type_number >= types::REPLY {
        return refuse(refusals::UNEXPECTED_TYPE, 0);
    }
    if records.iter().flatten().any(|entry| entry.id == id) {
        return refuse(refusals::ID_OUTSTANDING, 0);
    }
    let Some(free) = records.iter_mut().find(|record| record.is_none()) else {
        return refuse(refusals::TABLE_FULL, 0);
    };
    *free = Some(Entry { id, type_number });
    Ok(())
}

/// Reads a reply, and frees the record of the request that it answers.
#[inline(always)]
pub fn arrive<'a>(records: &mut [Record], message: &'a [u8]) -> Result<Received<Reply<'a, Names<'a>>>, Refusal> {
    check_sound(records)?;
    let received = read_reply(message)?;
    let held = records.iter_mut().find_map(|record| match *record {
        Some(entry) if entry.id == received.id => Some((record, entry.type_number)),
        _ => None,
    });
    let Some((record, asked)) = held else {
        return refuse(refusals::ID_NOT_OUTSTANDING, 0);
    };
    if !is_answer(asked, message[TYPE_PLACE]) {
        return refuse(refusals::TYPE_MISMATCH, 0);
    }
    *record = None;
    Ok(received)
}

fn is_answer(asked: u8, reply: u8) -> bool {
    reply == types::UNKNOWN_RESPONSE || reply == asked + types::REPLY
}

/// There are 64 records, each type is a request's, and no id is held twice.
#[inline(always)]
fn check_sound(records: &[Record]) -> Result<(), Refusal> {
    if records.len() != RECORDS {
        return refuse(refusals::UNSOUND_TABLE, 0);
    }
    for (place, record) in records.iter().enumerate() {
        let Some(entry) = record else { continue };
        let mut others = records[place + 1..].iter().flatten();
        if entry.type_number >= types::REPLY || others.any(|other| other.id == entry.id) {
            return refuse(refusals::UNSOUND_TABLE, 0);
        }
    }
    Ok(())
}

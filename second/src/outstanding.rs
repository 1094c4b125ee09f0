//! The table of outstanding requests, Item 5 of document 02.
//!
//! The service lends the records. Every check comes before the first change,
//! so a refusal changes no record.

use crate::methods::{REPLY_OFFSET, UNKNOWN_RESPONSE};
use crate::refusal::{
    refuse, Refusal, ID_NOT_OUTSTANDING, ID_OUTSTANDING, TABLE_FULL, TYPE_MISMATCH,
    UNEXPECTED_TYPE, UNSOUND_TABLE,
};
use crate::reply::{read_reply, Reply};

/// A table has exactly so many records.
pub const RECORDS: usize = 64;

/// An outstanding request has a type below this.
pub const TYPE_LIMIT: u8 = 0x80;

#[derive(Clone, Copy, Debug, PartialEq, Eq)]
pub enum Record {
    Free,
    /// A request that is still owed a reply; `kind` is its type.
    Held {
        id: u32,
        kind: u8,
    },
}

/// Frees all records, whatever they hold.
pub fn empty(records: &mut [Record]) -> Result<(), Refusal> {
    check_length(records)?;
    records.fill(Record::Free);
    Ok(())
}

/// Puts a request into the first free record.
pub fn enter(records: &mut [Record], id: u32, kind: u8) -> Result<(), Refusal> {
    check_sound(records)?;
    if kind >= TYPE_LIMIT {
        return refuse(UNEXPECTED_TYPE, 0);
    }
    if find(records, id).is_some() {
        return refuse(ID_OUTSTANDING, 0);
    }
    match records.iter_mut().find(|record| **record == Record::Free) {
        Some(record) => *record = Record::Held { id, kind },
        None => return refuse(TABLE_FULL, 0),
    }
    Ok(())
}

/// Takes a reply in: its request is no longer outstanding, and the reader's
/// answer is returned.
pub fn arrive<'a>(records: &mut [Record], message: &'a [u8]) -> Reply<'a> {
    remove(records, message).unwrap_or_else(Reply::Refused)
}

fn remove<'a>(records: &mut [Record], message: &'a [u8]) -> Result<Reply<'a>, Refusal> {
    check_sound(records)?;
    let reply = read_reply(message);
    let (id, kind) = reply.id_and_kind()?;
    let Some((place, requested)) = find(records, id) else {
        return refuse(ID_NOT_OUTSTANDING, 0);
    };
    if kind != requested + REPLY_OFFSET && kind != UNKNOWN_RESPONSE {
        return refuse(TYPE_MISMATCH, 0);
    }
    records[place] = Record::Free;
    Ok(reply)
}

/// What operators see: how many requests are outstanding, and the type of one
/// of them.
#[derive(Debug, PartialEq, Eq)]
pub struct Looked {
    pub count: usize,
    pub kind: Option<u8>,
}

pub fn look(records: &[Record], id: u32) -> Result<Looked, Refusal> {
    check_sound(records)?;
    let count = records.iter().filter(|record| **record != Record::Free).count();
    Ok(Looked { count, kind: find(records, id).map(|(_, kind)| kind) })
}

/// Place and type of the first record that holds this id.
fn find(records: &[Record], id: u32) -> Option<(usize, u8)> {
    records.iter().enumerate().find_map(|(place, record)| match *record {
        Record::Held { id: held, kind } if held == id => Some((place, kind)),
        _ => None,
    })
}

fn check_length(records: &[Record]) -> Result<(), Refusal> {
    if records.len() == RECORDS {
        Ok(())
    } else {
        refuse(UNSOUND_TABLE, 0)
    }
}

/// Refuses another number of records, an id that is held twice, and a held
/// type that no request has.
fn check_sound(records: &[Record]) -> Result<(), Refusal> {
    check_length(records)?;
    for (place, record) in records.iter().enumerate() {
        if let Record::Held { id, kind } = *record {
            if kind >= TYPE_LIMIT || find(&records[place + 1..], id).is_some() {
                return refuse(UNSOUND_TABLE, 0);
            }
        }
    }
    Ok(())
}

//! A plain model of the table of outstanding requests: what each call is to answer, and the words afterwards. Replies
//! are read by the library.
#![allow(dead_code)] // Each test uses some of these.

use std::collections::BTreeSet;
use tushalets::numbers::{refusals, shapes, types};
use tushalets::raw::{self, Looked, Reading};
use tushalets::RECORDS;

/// A record is free, or it has the id and the type of a request.
pub type Record = Option<(u32, u8)>;

/// The bit that every held record has, and where its type stands.
pub const HELD_BIT: u32 = 48;
pub const TYPE_SHIFT: u32 = 32;

pub const FREE: u64 = 0;

pub fn word(record: Record) -> u64 {
    record.map_or(FREE, |(id, type_number)| 1 << HELD_BIT | u64::from(type_number) << TYPE_SHIFT | u64::from(id))
}

/// The record that a word has; none where it has another word.
fn record(of: u64) -> Option<Record> {
    let held = Some((of as u32, (of >> TYPE_SHIFT) as u8));
    [None, held].into_iter().find(|record| word(*record) == of)
}

/// The records of a table that is sound.
fn sound(words: &[u64]) -> Option<Vec<Record>> {
    let records: Vec<Record> = words.iter().map(|word| record(*word)).collect::<Option<_>>()?;
    let held: Vec<(u32, u8)> = records.iter().copied().flatten().collect();
    let ids: BTreeSet<u32> = held.iter().map(|(id, _)| *id).collect();
    let are_requests = held.iter().all(|(_, type_number)| *type_number < types::REPLY);
    (words.len() == RECORDS && ids.len() == held.len() && are_requests).then_some(records)
}

// ---- messages

/// Bytes behind the type. As zeros they are a success of every method, with bytes to spare.
const BODY: usize = 100;

pub fn message(id: u32, type_number: u8, body: &[u8]) -> Vec<u8> {
    [&id.to_be_bytes()[..], &[type_number], body].concat()
}

pub fn success(id: u32, type_number: u8) -> Vec<u8> {
    message(id, type_number, &[0; BODY])
}

pub fn failure(id: u32, type_number: u8) -> Vec<u8> {
    message(id, type_number, &[0xff; 4])
}

// ---- calls

#[derive(Clone, Debug)]
pub enum Call {
    Empty,
    Enter { id: u32, type_number: u8 },
    Arrive { message: Vec<u8> },
    Look { id: u32 },
}

#[derive(Debug, PartialEq)]
pub enum Answer {
    Number(u32),
    Reading(Reading),
    Looked(Looked),
}

impl Answer {
    /// The number of refusal, 0 of none.
    pub fn number(&self) -> u32 {
        match self {
            Answer::Number(number) => *number,
            Answer::Reading(reading) => reading.number,
            Answer::Looked(looked) => looked.number,
        }
    }
}

impl Call {
    /// What the library answers. It is lent the words with others around them, which stay.
    pub fn by_library(&self, words: &mut [u64]) -> Answer {
        const AROUND: u64 = 0x5555_5555_5555_5555;
        let mut lent = [&[AROUND], &*words, &[AROUND]].concat();
        let end = words.len() + 1;
        let answer = self.by_library_on(&mut lent[1..end]);
        assert_eq!((lent[0], lent[end]), (AROUND, AROUND), "{self:?}");
        words.copy_from_slice(&lent[1..end]);
        answer
    }

    fn by_library_on(&self, words: &mut [u64]) -> Answer {
        match *self {
            Call::Empty => Answer::Number(raw::empty(words)),
            Call::Enter { id, type_number } => Answer::Number(raw::enter(words, id, type_number)),
            Call::Arrive { ref message } => Answer::Reading(raw::arrive(words, message)),
            Call::Look { id } => Answer::Looked(raw::look(words, id)),
        }
    }

    /// What it is to answer.
    pub fn by_model(&self, words: &mut [u64]) -> Answer {
        match *self {
            Call::Empty => Answer::Number(empty(words)),
            Call::Enter { id, type_number } => Answer::Number(enter(words, id, type_number)),
            Call::Arrive { ref message } => Answer::Reading(arrive(words, message)),
            Call::Look { id } => Answer::Looked(look(words, id)),
        }
    }
}

/// The library does to the words what the model does.
pub fn check(words: &mut [u64], call: &Call) -> Answer {
    let before = words.to_vec();
    let mut expected = words.to_vec();
    let answer = call.by_library(words);
    assert_eq!(answer, call.by_model(&mut expected), "{call:?} on {before:x?}");
    assert_eq!(words, expected, "{call:?} on {before:x?}");
    answer
}

// ---- the model

/// The place and the type of the request with this id.
fn find(records: &[Record], id: u32) -> Option<(usize, u8)> {
    let mut held = records.iter().enumerate().filter_map(|(at, record)| record.map(|request| (at, request)));
    held.find(|(_, request)| request.0 == id).map(|(at, request)| (at, request.1))
}

fn empty(words: &mut [u64]) -> u32 {
    if words.len() != RECORDS {
        return refusals::UNSOUND_TABLE.into();
    }
    words.fill(FREE);
    0
}

fn enter(words: &mut [u64], id: u32, type_number: u8) -> u32 {
    let Some(records) = sound(words) else { return refusals::UNSOUND_TABLE.into() };
    let refusal = match words.iter().position(|word| *word == FREE) {
        _ if type_number >= types::REPLY => refusals::UNEXPECTED_TYPE,
        _ if find(&records, id).is_some() => refusals::ID_OUTSTANDING,
        None => refusals::TABLE_FULL,
        Some(first_free) => {
            words[first_free] = word(Some((id, type_number)));
            return 0;
        }
    };
    refusal.into()
}

pub fn refused(number: u8, place: usize) -> Reading {
    let number = number.into();
    Reading { shape: shapes::REFUSED, number, id: 0, type_number: 0, place, known: 0, fields: [0; 17] }
}

fn arrive(words: &mut [u64], message: &[u8]) -> Reading {
    let Some(records) = sound(words) else { return refused(refusals::UNSOUND_TABLE, 0) };
    let reading = raw::read_reply(message);
    if reading.shape == shapes::REFUSED {
        return reading;
    }
    let Some((at, request)) = find(&records, reading.id) else { return refused(refusals::ID_NOT_OUTSTANDING, 0) };
    let answering = [request + types::REPLY, types::UNKNOWN_RESPONSE].map(u32::from);
    if !answering.contains(&reading.type_number) {
        return refused(refusals::TYPE_MISMATCH, 0);
    }
    words[at] = FREE;
    reading
}

fn look(words: &[u64], id: u32) -> Looked {
    let Some(records) = sound(words) else {
        return Looked { number: refusals::UNSOUND_TABLE.into(), held: 0, type_number: 0, count: 0 };
    };
    let found = find(&records, id).map(|(_, type_number)| type_number);
    Looked {
        number: 0,
        held: found.is_some().into(),
        type_number: found.unwrap_or(0).into(),
        count: records.iter().flatten().count(),
    }
}

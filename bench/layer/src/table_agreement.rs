//! Before anything is timed: both sides give the same answers and leave the same records, whatever they were lent.
use crate::agreement::{collected, damaged};
use crate::common::Random;
use crate::ordinary::read_reply;
use crate::ordinary::reading::TYPE_PLACE;
use crate::table::{self, Entry, Record};
use crate::{messages, nth_id, set_id};
use std::collections::BTreeSet;
use tushalets::numbers::{refusals, shapes, types};
use tushalets::{raw, Outstanding, Received, Refusal, Reply, RECORDS};

/// Tables that are made, and calls on each.
const TABLES: usize = 20_000;
const CALLS: usize = 16;

/// So many ids are used: one for each record, and as many that no record holds at first.
const IDS: usize = 2 * RECORDS;

/// One of so many tables is damaged, in each of three ways.
const DAMAGES: usize = 12;

/// In the word of a held record: where the type stands, above the id, and the bit that marks it as held.
const TYPE_SHIFT: u32 = 32;
const HELD_MARK: u64 = 1 << 48;

/// The number of a call that is not refused.
const ACCEPTED: u8 = 0;

/// What must occur, or too little was compared.
const ENTERED: [u8; 5] =
    [ACCEPTED, refusals::UNEXPECTED_TYPE, refusals::ID_OUTSTANDING, refusals::TABLE_FULL, refusals::UNSOUND_TABLE];
const ARRIVED: [u8; 5] =
    [ACCEPTED, refusals::TRUNCATED, refusals::ID_NOT_OUTSTANDING, refusals::TYPE_MISMATCH, refusals::UNSOUND_TABLE];

/// Compares both sides, and answers on how many calls.
pub fn compare(random: &mut Random) -> usize {
    let replies: Vec<_> = messages::replies().iter().map(messages::reply).collect();
    let (mut entered, mut arrived) = (BTreeSet::new(), BTreeSet::new());
    for _ in 0..TABLES {
        let mut both = Both::of(random_records(random));
        for _ in 0..CALLS / 2 {
            entered.insert(both.enter(random_id(random), random_type(random)));
            arrived.insert(both.arrive(&arriving(&replies, random)));
        }
    }
    assert!(ENTERED.iter().all(|number| entered.contains(number)), "{entered:?}");
    assert!(ARRIVED.iter().all(|number| arrived.contains(number)), "{arrived:?}");
    TABLES * CALLS
}

/// One table, as the words that the library takes and as the records of the ordinary program.
struct Both {
    words: Vec<u64>,
    records: Vec<Record>,
}

impl Both {
    fn of(records: Vec<Record>) -> Self {
        Both { words: words_of(&records), records }
    }

    /// Both sides enter. The answer is the number of the refusal, or 0.
    fn enter(&mut self, id: u32, type_number: u8) -> u8 {
        let ours = raw::enter(&mut self.words, id, type_number) as u8;
        let theirs = match table::enter(&mut self.records, id, type_number) {
            Ok(()) => ACCEPTED,
            Err(Refusal { number, place }) => {
                assert_eq!(place, 0);
                number
            }
        };
        assert_eq!(ours, theirs, "{id:x} {type_number:x}");
        assert_eq!(self.words, words_of(&self.records));
        ours
    }

    /// A reply arrives at both sides. The answer is the number of the refusal, or 0.
    fn arrive(&mut self, message: &[u8]) -> u8 {
        let ours = raw::arrive(&mut self.words, message);
        match table::arrive(&mut self.records, message).map(collected) {
            Ok(received) => {
                assert_eq!(ours, raw::read_reply(message), "{message:02x?}");
                assert_eq!(Ok(received), answered_alone(message).map(collected), "{message:02x?}");
            }
            Err(Refusal { number, place }) => {
                let refused = (shapes::REFUSED, u32::from(number), place);
                assert_eq!((ours.shape, ours.number, ours.place), refused, "{message:02x?}");
            }
        }
        assert_eq!(self.words, words_of(&self.records));
        ours.number as u8
    }
}

/// What the typed table answers to a reply, where it holds nothing but the request.
fn answered_alone(message: &[u8]) -> Result<Received<Reply<'_>>, Refusal> {
    let Received { id, .. } = read_reply(message)?;
    let mut outstanding = Outstanding::new();
    outstanding.enter(id, message[TYPE_PLACE] - types::REPLY)?;
    outstanding.arrive(message)
}

fn words_of(records: &[Record]) -> Vec<u64> {
    let word_of = |entry: Entry| HELD_MARK | u64::from(entry.type_number) << TYPE_SHIFT | u64::from(entry.id);
    records.iter().map(|record| record.map_or(0, word_of)).collect()
}

/// Records of which none, one, some or all are held; at times not sound.
fn random_records(random: &mut Random) -> Vec<Record> {
    let held = [0, 1, RECORDS / 2, RECORDS - 1, RECORDS][random.below(5)];
    let mut records: Vec<Record> = (0..RECORDS as u32)
        .map(|n| (random.below(RECORDS) < held).then(|| Entry { id: nth_id(n), type_number: method_type(random) }))
        .collect();
    let place = random.below(RECORDS);
    match random.below(DAMAGES) {
        0 => records[place] = Some(Entry { id: random_id(random), type_number: random.below(256) as u8 }),
        1 => records[place] = records[random.below(RECORDS)],
        2 => records.resize(random.below(IDS), None),
        _ => {}
    }
    records
}

/// A reply to an id that may be outstanding; every second one damaged.
fn arriving(replies: &[Vec<u8>], random: &mut Random) -> Vec<u8> {
    let mut message = replies[random.below(replies.len())].clone();
    set_id(&mut message, random_id(random));
    match random.below(2) {
        0 => damaged(&message, random),
        _ => message,
    }
}

fn random_id(random: &mut Random) -> u32 {
    nth_id(random.below(IDS) as u32)
}

/// The type of a request of a method; at times any type.
fn random_type(random: &mut Random) -> u8 {
    match random.below(4) {
        0 => random.below(256) as u8,
        _ => method_type(random),
    }
}

fn method_type(random: &mut Random) -> u8 {
    types::ACCESS + random.below(usize::from(types::GETCREDS)) as u8
}

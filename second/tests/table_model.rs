//! The answers to the cases of `t` and `o`, worked out again: the table seen
//! from outside is a map from id to type with at most 64 ids.

mod common;

use std::collections::BTreeMap;

use common::framed;
use common::tables::{table, Called, Held, Table};
use second::answer::answer;
use second::hash::hash;
use second::make::case::Case;
use second::make::{fixed_list, Cases};
use second::outstanding::{arrive, Record};

const FRESH: usize = 3_000;

fn cases(op: &str) -> Vec<Case> {
    fixed_list(op).into_iter().chain(Cases::fresh(17, op).take(FRESH)).collect()
}

/// Id to type, if the table is sound.
fn map(records: &[Held]) -> Option<BTreeMap<u32, u8>> {
    let held: Vec<(u32, u8)> = records.iter().copied().flatten().collect();
    let map: BTreeMap<u32, u8> = held.iter().copied().collect();
    let requests = map.values().all(|kind| kind >> 7 == 0);
    (records.len() == 64 && map.len() == held.len() && requests).then_some(map)
}

/// What the reader alone says of a reply.
fn read(message: &[u8]) -> String {
    let line = answer(b'p', &framed(message)).unwrap();
    line.split(" parts=").next().unwrap().to_string()
}

/// The answer, by the map before the call.
fn answered(records: &[Held], call: &Called) -> String {
    if let Called::Empty = call {
        return if records.len() == 64 { "emptied" } else { "refused 20 at 0" }.to_string();
    }
    let Some(map) = map(records) else { return "refused 20 at 0".to_string() };
    match call {
        Called::Enter(_, 0x80..) => "refused 3 at 0".to_string(),
        Called::Enter(id, _) if map.contains_key(id) => "refused 10 at 0".to_string(),
        Called::Enter(..) if map.len() == 64 => "refused 11 at 0".to_string(),
        Called::Enter(..) => "entered".to_string(),
        Called::Look(id) => {
            let kind = map.get(id).map_or("none".to_string(), u8::to_string);
            format!("looked {} {kind}", map.len())
        }
        Called::Arrive(message) => {
            let words = read(message);
            if words.starts_with("refused ") {
                return words;
            }
            match map.get(&id_of(message)) {
                None => "refused 12 at 0".to_string(),
                Some(kind) if [kind | 0x80, 0x80].contains(&message[4]) => words,
                Some(_) => "refused 13 at 0".to_string(),
            }
        }
        Called::Empty => unreachable!(),
    }
}

fn id_of(message: &[u8]) -> u32 {
    u32::from_be_bytes(message[..4].try_into().unwrap())
}

/// The records behind a call with this answer.
fn changed(mut records: Vec<Held>, call: &Called, words: &str) -> Vec<Held> {
    match call {
        _ if words.starts_with("refused ") => {}
        Called::Empty => records = vec![None; 64],
        Called::Enter(id, kind) => {
            let first = records.iter().position(Option::is_none).unwrap();
            records[first] = Some((*id, *kind));
        }
        Called::Arrive(message) => {
            let id = id_of(message);
            let place = records.iter().position(|held| held.is_some_and(|(held, _)| held == id));
            records[place.unwrap()] = None;
        }
        Called::Look(_) => {}
    }
    records
}

fn sum(records: &[Held]) -> u64 {
    let mut bytes = Vec::new();
    for held in records {
        let (id, kind) = held.unwrap_or_default();
        bytes.push(u8::from(held.is_some()));
        bytes.extend_from_slice(&id.to_be_bytes());
        bytes.push(kind);
    }
    hash(&bytes)
}

#[test]
fn every_call_is_answered_by_the_map() {
    for case in cases("t") {
        let Table { mut records, told } = table(&case);
        for told in told {
            let wanted = answered(&records, &told.call);
            assert_eq!(told.words, wanted, "{:?}", told.call);
            records = changed(records, &told.call, &wanted);
            assert_eq!(told.sum, sum(&records), "{:?}", told.call);
        }
    }
}

/// The parts that op `s` shows of a reply.
fn parts(message: &[u8]) -> String {
    let line = answer(b's', &[&[1, 0, 0, 0, 0][..], message].concat()).unwrap();
    line.split(' ').skip(1).take(3).collect::<Vec<&str>>().join(" ")
}

#[test]
fn single_calls_are_answered_by_the_map() {
    for case in cases("o") {
        let Table { records, told } = table(&case);
        let [told] = &told[..] else { panic!() };
        let words = answered(&records, &told.call);
        let after = changed(records, &told.call, &words);
        let wanted = match &told.call {
            Called::Arrive(message) if !words.starts_with("refused ") => {
                format!("answered {}", parts(message))
            }
            _ => words,
        };
        assert_eq!(told.words, wanted, "{:?}", told.call);
        assert_eq!(told.sum, sum(&after), "{:?}", told.call);
    }
}

/// The records after both replies, if both are answered.
fn after(records: &[Record], replies: [&[u8]; 2]) -> Option<Vec<Record>> {
    let mut records = records.to_vec();
    let taken = replies.map(|reply| arrive(&mut records, reply).id_and_kind().is_ok());
    (taken == [true; 2]).then_some(records)
}

/// Where two replies follow each other and both are answered, the other order
/// ends in the same records.
#[test]
fn either_order_ends_in_the_same_map() {
    let mut pairs = 0;
    for case in cases("t") {
        let Table { mut records, told } = table(&case);
        for next in told.windows(2) {
            if let [Called::Arrive(first), Called::Arrive(second)] = [&next[0].call, &next[1].call]
            {
                let table: Vec<Record> = records.iter().map(record).collect();
                if let Some(ended) = after(&table, [first, second]) {
                    assert_eq!(after(&table, [second, first]), Some(ended));
                    pairs += 1;
                }
            }
            records = changed(records, &next[0].call, &next[0].words);
        }
    }
    assert!(pairs > 1_000);
}

fn record(held: &Held) -> Record {
    held.map_or(Record::Free, |(id, kind)| Record::Held { id, kind })
}

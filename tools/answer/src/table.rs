//! `t`: calls on a table of outstanding requests.
//!
//! The calls go to the exported functions, on words of any number. Where the table is sound they go to the safe type
//! too, and both must answer the same.

use crate::body::{Body, Malformed};
use crate::checksum::Checksum;
use crate::reading::{show_received, show_refusal};
use tushalets::numbers::shapes;
use tushalets::{raw, read_reply, Outstanding, Refusal, RECORDS};

/// The greatest count of records.
const MOST_RECORDS: u16 = 200;

/// The first byte of a record.
const FREE_RECORD: u8 = 0;
const HELD_RECORD: u8 = 1;

/// In the place of that byte where a word is no record, which no answer leaves.
const NO_RECORD: u8 = 0xff;

/// A free record in its word; the bit that a held one has, and where its type stands above its id.
const FREE_WORD: u64 = 0;
const HELD_WORD: u64 = 1 << 48;
const TYPE_SHIFT: u32 = 32;

/// The calls.
const EMPTY: u8 = b'e';
const ENTER: u8 = b'n';
const ARRIVE: u8 = b'a';
const LOOK: u8 = b'k';

const DIFFER: &str = "differ";

pub fn show(body: &mut Body<'_>) -> Result<String, Malformed> {
    let mut table = Table::take(body)?;
    let mut line = String::from("table");
    while !body.is_empty() {
        let answer = table.call(body)?;
        line += &format!(" {answer} records={}", checksum_of(&table.words));
    }
    Ok(line)
}

/// The id and the type that the word of a held record has.
fn request_of(word: u64) -> (u32, u8) {
    (word as u32, (word >> TYPE_SHIFT) as u8)
}

/// The word of a held record.
fn word_of((id, type_number): (u32, u8)) -> u64 {
    HELD_WORD | u64::from(type_number) << TYPE_SHIFT | u64::from(id)
}

/// The checksum of the records, a free one as zeros.
fn checksum_of(words: &[u64]) -> u64 {
    let mut sum = Checksum::default();
    for word in words {
        let (id, type_number) = request_of(*word);
        let kind = match *word {
            FREE_WORD => FREE_RECORD,
            held if held == word_of((id, type_number)) => HELD_RECORD,
            _ => NO_RECORD,
        };
        sum.add(&[kind]);
        sum.add(&id.to_be_bytes());
        sum.add(&[type_number]);
    }
    sum.value()
}

fn take_record(body: &mut Body<'_>) -> Result<u64, Malformed> {
    match body.u8()? {
        FREE_RECORD => Ok(FREE_WORD),
        HELD_RECORD => Ok(word_of((body.u32()?, body.u8()?))),
        _ => Err(Malformed("a record that is neither free nor held")),
    }
}

/// The records as words; and, of a sound table, the same requests in the safe type.
struct Table {
    words: Vec<u64>,
    safe: Option<Outstanding>,
}

/// The answer of the exported function, if the safe type has none or the same.
fn agreed<T: PartialEq>(answer: T, safe: Option<T>) -> Option<T> {
    match safe {
        Some(other) if other != answer => None,
        _ => Some(answer),
    }
}

fn refusal(number: u32, place: usize) -> Refusal {
    Refusal { number: u8::try_from(number).expect("the number of a refusal"), place }
}

/// No refusal, or that of this number; its place is 0.
fn result_of(number: u32) -> Result<(), Refusal> {
    match number {
        0 => Ok(()),
        number => Err(refusal(number, 0)),
    }
}

impl Table {
    fn take(body: &mut Body<'_>) -> Result<Self, Malformed> {
        let count = body.u16()?;
        if count > MOST_RECORDS {
            return Err(Malformed("a count above the greatest"));
        }
        let words: Vec<u64> = (0..count).map(|_| take_record(body)).collect::<Result<_, _>>()?;
        let safe = safe_table(&words);
        Ok(Table { words, safe })
    }

    fn call(&mut self, body: &mut Body<'_>) -> Result<String, Malformed> {
        let answer = match body.u8()? {
            EMPTY => self.empty(),
            ENTER => self.enter(body.u32()?, body.u8()?),
            ARRIVE => self.arrive(&body.run()?),
            LOOK => self.look(body.u32()?),
            _ => return Err(Malformed("a call that is not known")),
        };
        Ok(answer.unwrap_or_else(|| String::from(DIFFER)))
    }

    fn empty(&mut self) -> Option<String> {
        let result = result_of(raw::empty(&mut self.words));
        let safe = self.safe.as_mut().map(|safe| {
            safe.clear();
            Ok(())
        });
        if result.is_ok() && self.safe.is_none() {
            self.safe = Some(Outstanding::new());
        }
        agreed(result, safe).map(|result| show_done("emptied", result))
    }

    fn enter(&mut self, id: u32, type_number: u8) -> Option<String> {
        let result = result_of(raw::enter(&mut self.words, id, type_number));
        let safe = self.safe.as_mut().map(|safe| safe.enter(id, type_number));
        agreed(result, safe).map(|result| show_done("entered", result))
    }

    /// An accepted reply is shown as the reader shows it, so its reading must be the reader's.
    fn arrive(&mut self, message: &[u8]) -> Option<String> {
        let reading = raw::arrive(&mut self.words, message);
        let result = if reading.shape == shapes::REFUSED {
            Err(refusal(reading.number, reading.place))
        } else if reading == raw::read_reply(message) {
            read_reply(message)
        } else {
            return None;
        };
        let safe = self.safe.as_mut().map(|safe| safe.arrive(message));
        agreed(result, safe).map(|result| result.map_or_else(show_refusal, |reply| show_received(message, &reply)))
    }

    fn look(&self, id: u32) -> Option<String> {
        let looked = raw::look(&self.words, id);
        let type_number = (looked.held != 0).then_some(looked.type_number as u8);
        let result = result_of(looked.number).map(|()| (looked.count, type_number));
        let safe = self.safe.as_ref().map(|safe| Ok((safe.len(), safe.type_of(id))));
        agreed(result, safe).map(|result| result.map_or_else(show_refusal, show_looked))
    }
}

/// The safe type with these requests; none where the table is not sound.
fn safe_table(words: &[u64]) -> Option<Outstanding> {
    let mut safe = Outstanding::new();
    for word in words.iter().filter(|word| **word != FREE_WORD) {
        let (id, type_number) = request_of(*word);
        safe.enter(id, type_number).ok()?;
    }
    (words.len() == RECORDS).then_some(safe)
}

fn show_done(done: &str, result: Result<(), Refusal>) -> String {
    result.map_or_else(show_refusal, |()| String::from(done))
}

fn show_looked((count, type_number): (usize, Option<u8>)) -> String {
    let found = type_number.map_or_else(|| String::from("none"), |type_number| type_number.to_string());
    format!("looked {count} {found}")
}

#[cfg(test)]
mod tests {
    use super::*;
    use tushalets::numbers::types;

    const REQUEST: (u32, u8) = (7, types::OPEN);

    /// A table whose safe type has lost its request.
    fn differing() -> Table {
        let mut words = vec![FREE_WORD; RECORDS];
        words[0] = word_of(REQUEST);
        Table { words, safe: Some(Outstanding::new()) }
    }

    #[test]
    fn a_difference_is_shown() {
        let (id, type_number) = REQUEST;
        let reply = [&id.to_be_bytes()[..], &[types::UNKNOWN_RESPONSE]].concat();
        assert_eq!(differing().enter(id, type_number), None);
        assert_eq!(differing().arrive(&reply), None);
        assert_eq!(differing().look(id), None);
        assert_eq!(differing().call(&mut Body::new(&[LOOK, 0, 0, 0, 7])).unwrap(), DIFFER);
    }

    #[test]
    fn a_table_that_was_emptied_is_compared_again() {
        let mut table = Table { words: vec![u64::MAX; RECORDS], safe: None };
        assert_eq!(table.empty().as_deref(), Some("emptied"));
        assert_eq!(table.safe, Some(Outstanding::new()));
    }

    #[test]
    fn a_sound_table_is_compared() {
        let with = |places: &[usize], requests: &[(u32, u8)]| {
            let mut words = vec![FREE_WORD; RECORDS];
            for (place, request) in places.iter().zip(requests) {
                words[*place] = word_of(*request);
            }
            safe_table(&words).map(|safe| safe.len())
        };
        assert_eq!(with(&[], &[]), Some(0));
        assert_eq!(with(&[5, 63], &[(0, 0), REQUEST]), Some(2));
        assert_eq!(with(&[5, 63], &[REQUEST, REQUEST]), None);
        assert_eq!(with(&[5], &[(7, types::OPEN_REPLY)]), None);
        assert_eq!(safe_table(&[FREE_WORD; RECORDS - 1]), None);
    }

    /// Each bit of a word counts for the checksum, also one that no record has.
    #[test]
    fn every_bit_is_shown() {
        for word in [FREE_WORD, word_of(REQUEST)] {
            for bit in 0..u64::BITS {
                assert_ne!(checksum_of(&[word ^ 1 << bit]), checksum_of(&[word]), "bit {bit} of {word:x}");
            }
        }
    }
}

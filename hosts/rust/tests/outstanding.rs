//! The functions on the words of a table of outstanding requests: sound tables and others, the order of refusals, the
//! words afterwards. Every call is compared with a plain model too.

mod model;

use model::{check, failure, message, refused, success, word, Answer, Call, Record, FREE, HELD_BIT, TYPE_SHIFT};
use tushalets::numbers::{refusals, types};
use tushalets::raw::{self, Looked};
use tushalets::RECORDS;

/// The first type that no request can be entered with.
const NO_REQUEST: u8 = types::REPLY;

/// A sound table: these records first, and free ones.
fn table(records: &[Record]) -> Vec<u64> {
    let mut words: Vec<u64> = records.iter().map(|record| word(*record)).collect();
    words.resize(RECORDS, FREE);
    words
}

/// A table without room: the ids from 0 on, each an access.
fn full() -> Vec<u64> {
    (0..RECORDS as u32).map(|id| word(Some((id, types::ACCESS)))).collect()
}

fn enter(id: u32, type_number: u8) -> Call {
    Call::Enter { id, type_number }
}

fn arrive(message: Vec<u8>) -> Call {
    Call::Arrive { message }
}

/// Each call that looks at the words.
fn calls(id: u32) -> [Call; 5] {
    [
        enter(id, types::ACCESS),
        enter(id, NO_REQUEST),
        arrive(success(id, types::ACCESS_REPLY)),
        arrive(Vec::new()),
        Call::Look { id },
    ]
}

/// The call is refused so, and no word changes.
fn assert_refused(words: &[u64], call: &Call, number: u8, place: usize) {
    let mut lent = words.to_vec();
    let expected = match call {
        Call::Arrive { .. } => Answer::Reading(refused(number, place)),
        Call::Look { .. } => Answer::Looked(Looked { number: number.into(), held: 0, type_number: 0, count: 0 }),
        _ => Answer::Number(number.into()),
    };
    assert_eq!(check(&mut lent, call), expected, "{call:?} on {words:x?}");
    assert_eq!(lent, words, "{call:?}");
}

/// Only emptying takes such a table, and frees it.
fn assert_unsound(words: &[u64]) {
    for id in [words[0] as u32, u32::MAX] {
        for call in calls(id) {
            assert_refused(words, &call, refusals::UNSOUND_TABLE, 0);
        }
    }
    let mut lent = words.to_vec();
    assert_eq!(check(&mut lent, &Call::Empty), Answer::Number(0));
    assert_eq!(lent, [FREE; RECORDS]);
}

// ---- tables that are not sound

#[test]
fn another_number_of_records() {
    for len in [0, 1, RECORDS - 1, RECORDS + 1, 2 * RECORDS] {
        for words in [vec![FREE; len], vec![u64::MAX; len]] {
            assert_refused(&words, &Call::Empty, refusals::UNSOUND_TABLE, 0);
            for call in calls(0) {
                assert_refused(&words, &call, refusals::UNSOUND_TABLE, 0);
            }
        }
    }
}

/// A word with one bit: a held record with id 0 and type 0, or none.
#[test]
fn a_word_of_one_bit() {
    for bit in 0..u64::BITS {
        for place in [0, RECORDS / 2, RECORDS - 1] {
            let mut words = table(&[]);
            words[place] = 1 << bit;
            if bit == HELD_BIT {
                let looked = Looked { number: 0, held: 1, type_number: 0, count: 1 };
                assert_eq!(check(&mut words, &Call::Look { id: 0 }), Answer::Looked(looked));
            } else {
                assert_unsound(&words);
            }
        }
    }
}

/// A held record with one bit more: another id or type; a type that no request has; or no record.
#[test]
fn a_held_record_with_one_bit_more() {
    let type_bits = TYPE_SHIFT..TYPE_SHIFT + u8::BITS;
    for bit in (0..u64::BITS).filter(|bit| *bit != HELD_BIT) {
        let mut words = table(&[Some((0, 0)), None, Some((u32::MAX, types::GETCREDS))]);
        words[0] |= 1 << bit;
        if bit < type_bits.end - 1 {
            let looked = raw::look(&words, words[0] as u32);
            let type_number = if bit < type_bits.start { 0 } else { 1 << (bit - type_bits.start) };
            assert_eq!(looked, Looked { number: 0, held: 1, type_number, count: 2 });
        } else {
            assert_unsound(&words);
        }
    }
}

#[test]
fn an_id_that_is_held_twice() {
    for (first, second) in [(0, 1), (0, RECORDS - 1), (RECORDS - 2, RECORDS - 1)] {
        let mut words = full();
        words[second] = words[first];
        assert_unsound(&words);
        words[second] = word(Some((first as u32, types::GETATTR)));
        assert_unsound(&words);
    }
}

#[test]
fn a_held_type_that_no_request_has() {
    for type_number in [NO_REQUEST, types::ACCESS_REPLY, u8::MAX] {
        for place in [0, RECORDS - 1] {
            let mut words = full();
            words[place] = word(Some((place as u32, type_number)));
            assert_unsound(&words);
        }
    }
}

// ---- entering

#[test]
fn requests_go_into_the_first_free_record() {
    let mut words = vec![FREE; RECORDS];
    for id in 0..RECORDS as u32 {
        assert_eq!(check(&mut words, &enter(id, types::ACCESS)), Answer::Number(0));
        assert_eq!(words, table(&full_records(id + 1)));
    }
    for place in [40, 3, 17] {
        check(&mut words, &arrive(failure(place, types::ACCESS_REPLY)));
    }
    for (place, id) in [(3, u32::MAX), (17, 3), (40, 17)] {
        assert_eq!(check(&mut words, &enter(id, types::GETATTR)), Answer::Number(0));
        assert_eq!(words[place], word(Some((id, types::GETATTR))));
    }
    assert_refused(&words, &enter(40, types::ACCESS), refusals::TABLE_FULL, 0);
}

/// The first records of a full table.
fn full_records(count: u32) -> Vec<Record> {
    (0..count).map(|id| Some((id, types::ACCESS))).collect()
}

/// A record has the word that is documented.
#[test]
fn a_record_is_a_word() {
    let mut words = table(&[]);
    assert_eq!(raw::enter(&mut words, 0x89ab_cdef, 0x17), 0);
    assert_eq!(words[0], 0x0001_0017_89ab_cdef);
    assert_eq!(raw::enter(&mut words, 0, 0), 0);
    assert_eq!(words[1], 0x0001_0000_0000_0000);
    assert_eq!(words[2..], [0; RECORDS - 2]);
}

#[test]
fn refusals_of_entering_in_order() {
    let new = RECORDS as u32;
    for type_number in [NO_REQUEST, types::ACCESS_REPLY, u8::MAX] {
        assert_refused(&full(), &enter(0, type_number), refusals::UNEXPECTED_TYPE, 0);
        assert_refused(&full(), &enter(new, type_number), refusals::UNEXPECTED_TYPE, 0);
        assert_refused(&table(&[]), &enter(new, type_number), refusals::UNEXPECTED_TYPE, 0);
    }
    assert_refused(&full(), &enter(0, types::GETATTR), refusals::ID_OUTSTANDING, 0);
    assert_refused(&full(), &enter(new - 1, types::ACCESS), refusals::ID_OUTSTANDING, 0);
    assert_refused(&table(&full_records(1)), &enter(0, types::ACCESS), refusals::ID_OUTSTANDING, 0);
    assert_refused(&full(), &enter(new, types::ACCESS), refusals::TABLE_FULL, 0);
}

// ---- replies

/// A request is answered by its own reply and by the unknown response. No reader takes a type behind that of getcreds.
#[test]
fn every_type_of_reply_to_every_type_of_request() {
    const ID: u32 = 0x8000_0001;
    for request in 0..NO_REQUEST {
        let mut words = table(&[None, Some((ID - 1, request))]);
        assert_eq!(check(&mut words, &enter(ID, request)), Answer::Number(0));
        for reply in 0..=u8::MAX {
            for message in [success(ID, reply), failure(ID, reply)] {
                let reading = raw::read_reply(&message);
                let answer = check(&mut words.clone(), &arrive(message));
                let Answer::Reading(answer) = answer else { panic!("{answer:?}") };
                if (types::UNKNOWN_RESPONSE..=types::GETCREDS_REPLY).contains(&reply) && reading.number == 0 {
                    let is_answer = reply == request + types::REPLY || reply == types::UNKNOWN_RESPONSE;
                    let expected = if is_answer { reading } else { refused(refusals::TYPE_MISMATCH, 0) };
                    assert_eq!(answer, expected, "{request:x} {reply:x}");
                } else {
                    assert_eq!(answer, reading, "{request:x} {reply:x}");
                    assert_ne!(answer.number, 0, "{request:x} {reply:x}");
                }
            }
        }
    }
}

/// Only the record of the id is freed.
#[test]
fn an_answered_request_leaves_the_others() {
    for place in 0..RECORDS {
        let mut words = full();
        let reading = raw::read_reply(&success(place as u32, types::ACCESS_REPLY));
        let answer = check(&mut words, &arrive(success(place as u32, types::ACCESS_REPLY)));
        assert_eq!(answer, Answer::Reading(reading));
        let mut expected = full();
        expected[place] = FREE;
        assert_eq!(words, expected);
    }
}

#[test]
fn refusals_of_a_reply_in_order() {
    let words = table(&[Some((1, types::GETATTR))]);
    let cut = |id| message(id, types::GETATTR_REPLY, &[0; 4]);
    // The reader's, with its place, whether or not the id is outstanding.
    assert_refused(&words, &arrive(vec![0, 0, 0, 1]), refusals::TRUNCATED_HEADER, 0);
    assert_refused(&words, &arrive(cut(1)), refusals::TRUNCATED, 9);
    assert_refused(&words, &arrive(cut(2)), refusals::TRUNCATED, 9);
    assert_refused(&words, &arrive(success(2, types::GETATTR)), refusals::UNEXPECTED_TYPE, 4);
    assert_refused(&words, &arrive(success(1, types::GETCREDS_REPLY + 1)), refusals::UNEXPECTED_TYPE, 4);
    // An id that is not outstanding, whether or not another has the type.
    assert_refused(&words, &arrive(success(2, types::GETATTR_REPLY)), refusals::ID_NOT_OUTSTANDING, 0);
    assert_refused(&words, &arrive(failure(2, types::READ_REPLY)), refusals::ID_NOT_OUTSTANDING, 0);
    assert_refused(&words, &arrive(message(2, types::UNKNOWN_RESPONSE, &[])), refusals::ID_NOT_OUTSTANDING, 0);
    assert_refused(&table(&[]), &arrive(success(0, types::ACCESS_REPLY)), refusals::ID_NOT_OUTSTANDING, 0);
    assert_refused(&words, &arrive(success(1, types::READ_REPLY)), refusals::TYPE_MISMATCH, 0);
    assert_refused(&words, &arrive(failure(1, types::ACCESS_REPLY)), refusals::TYPE_MISMATCH, 0);
}

/// Replies to two ids end in the same words in either order.
#[test]
fn replies_in_either_order() {
    let (first, second) = (arrive(success(3, types::ACCESS_REPLY)), arrive(failure(60, types::ACCESS_REPLY)));
    let (mut one, mut other) = (full(), full());
    for (words, calls) in [(&mut one, [&first, &second]), (&mut other, [&second, &first])] {
        for call in calls {
            assert_eq!(check(words, call).number(), 0);
        }
    }
    assert_eq!(one, other);
}

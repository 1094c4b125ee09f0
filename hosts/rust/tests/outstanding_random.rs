//! Random calls on a table of outstanding requests: the functions on words against a plain model, and the safe type
//! against them.

mod model;
mod random;

use model::{check, failure, success, Answer, Call, FREE, TYPE_SHIFT};
use random::Random;
use std::collections::BTreeSet;
use tushalets::numbers::{refusals, types};
use tushalets::{read_reply, Outstanding, Refusal, RECORDS};

const SEED: u64 = 0x9e37_79b9_7f4a_7c15;
const CALLS: u64 = 40_000;

/// After so many calls a table that was filled is drained, and the other way round.
const PHASE: u64 = 512;

/// More ids than a table holds, but so few that they meet again.
const IDS: u64 = 90;

fn place(random: &mut Random) -> usize {
    random.below(RECORDS as u64) as usize
}

/// Ids of all sizes: those of an odd factor are different.
fn id(random: &mut Random) -> u32 {
    (random.below(IDS) as u32).wrapping_mul(0x9e37_79b1)
}

fn request_type(random: &mut Random) -> u8 {
    match random.below(8) {
        0 => random.below(0x100) as u8,
        _ => types::ACCESS + random.below(types::GETCREDS.into()) as u8,
    }
}

/// Most replies answer what a record holds. Others have another type or id, or are cut.
fn reply(random: &mut Random, words: &[u64]) -> Vec<u8> {
    let held = words[place(random)];
    let (id, request) = match random.below(8) {
        0 => (id(random), request_type(random)),
        1 => (held as u32, request_type(random)),
        _ => (held as u32, (held >> TYPE_SHIFT) as u8),
    };
    let type_number = if random.below(8) == 0 { types::UNKNOWN_RESPONSE } else { request.wrapping_add(types::REPLY) };
    let mut message = if random.below(2) == 0 { success(id, type_number) } else { failure(id, type_number) };
    if random.below(8) == 0 {
        message.truncate(random.below(message.len() as u64) as usize);
    }
    message
}

fn call(random: &mut Random, words: &[u64], number: u64) -> Call {
    let is_filling = number / PHASE % 2 == 0;
    let of_entering = if is_filling { 24 } else { 4 };
    match random.below(32) {
        0 if random.below(64) == 0 => Call::Empty,
        0..=3 => Call::Look { id: id(random) },
        kind if kind < 4 + of_entering => Call::Enter { id: id(random), type_number: request_type(random) },
        _ => Call::Arrive { message: reply(random, words) },
    }
}

/// The table with something wrong: a bit, an id that is held twice, a word, a record too few or too many. By chance it
/// may be sound all the same.
fn spoiled(random: &mut Random, words: &[u64]) -> Vec<u64> {
    let mut words = words.to_vec();
    let (at, other) = (place(random), words[place(random)]);
    match random.below(5) {
        0 => words[at] ^= 1 << random.below(u64::BITS.into()),
        1 => words[at] = other,
        2 => words[at] = random.below(1 << 32) << 32 | random.below(1 << 32),
        3 => {
            words.remove(at);
        }
        _ => words.insert(at, other),
    }
    words
}

/// The kind of a call, and the number of its refusal or 0.
fn told(call: &Call, answer: &Answer) -> (&'static str, u32) {
    let kind = match call {
        Call::Empty => "empty",
        Call::Enter { .. } => "enter",
        Call::Arrive { .. } => "arrive",
        Call::Look { .. } => "look",
    };
    (kind, answer.number())
}

/// Each refusal that such calls can meet does occur: otherwise they would show little.
#[test]
fn calls_on_a_sound_table() {
    let mut random = Random(SEED);
    let mut words = vec![FREE; RECORDS];
    let mut outstanding = Outstanding::new();
    let mut met = BTreeSet::new();
    for number in 0..CALLS {
        let call = call(&mut random, &words, number);
        let answer = check(&mut words, &call);
        check_safe_type(&mut outstanding, &call, &answer);
        met.insert(told(&call, &answer));
    }
    let entering = [0, refusals::UNEXPECTED_TYPE, refusals::ID_OUTSTANDING, refusals::TABLE_FULL];
    let arriving = [
        0,
        refusals::TRUNCATED_HEADER,
        refusals::UNEXPECTED_TYPE,
        refusals::TRUNCATED,
        refusals::ID_NOT_OUTSTANDING,
        refusals::TYPE_MISMATCH,
    ];
    let mut expected = BTreeSet::from([("empty", 0), ("look", 0)]);
    expected.extend(entering.map(|number| ("enter", number.into())));
    expected.extend(arriving.map(|number| ("arrive", number.into())));
    assert_eq!(met, expected);
}

/// The safe type answers as the words do.
fn check_safe_type(outstanding: &mut Outstanding, call: &Call, answer: &Answer) {
    let refusal = |number: u32, place| Refusal { number: number as u8, place };
    match (call, answer) {
        (Call::Empty, _) => outstanding.clear(),
        (Call::Enter { id, type_number }, Answer::Number(number)) => {
            let expected = if *number == 0 { Ok(()) } else { Err(refusal(*number, 0)) };
            assert_eq!(outstanding.enter(*id, *type_number), expected, "{call:?}");
        }
        (Call::Arrive { message }, Answer::Reading(reading)) => {
            let refused = || Err(refusal(reading.number, reading.place));
            let expected = if reading.number == 0 { read_reply(message) } else { refused() };
            assert_eq!(outstanding.arrive(message), expected, "{call:?}");
        }
        (Call::Look { id }, Answer::Looked(looked)) => {
            let type_number = (looked.held == 1).then_some(looked.type_number as u8);
            assert_eq!((outstanding.len(), outstanding.type_of(*id)), (looked.count, type_number), "{call:?}");
            assert_eq!(outstanding.is_empty(), looked.count == 0, "{call:?}");
        }
        _ => panic!("{call:?} is answered by {answer:?}"),
    }
}

#[test]
fn calls_on_spoiled_tables() {
    let mut random = Random(SEED);
    let mut words = vec![FREE; RECORDS];
    let mut met = BTreeSet::new();
    for number in 0..CALLS {
        let call = call(&mut random, &words, number);
        let answer = check(&mut spoiled(&mut random, &words), &call);
        met.insert(told(&call, &answer));
        check(&mut words, &call);
    }
    for kind in ["empty", "enter", "arrive", "look"] {
        assert!(met.contains(&(kind, refusals::UNSOUND_TABLE.into())), "{kind}");
    }
}

//! Random tables of outstanding requests, and calls on them.

use crate::answer::table::MOST_RECORDS;
use crate::answer::LONGEST_SHOWN;
use crate::make::call::{calls, one_call, Call};
use crate::make::case::{Case, Filled, Side};
use crate::make::prng::Prng;
use crate::make::random_messages::message;
use crate::make::random_replies::{answer, bad_type, reply_type, request_type, with_id};
use crate::make::random_values::id;
use crate::methods::REPLY_OFFSET;
use crate::outstanding::{arrive, empty, enter, Record, RECORDS};

/// So many records hold a request at the beginning.
const COUNTS: [usize; 12] = [0, 0, 1, 2, 5, 20, 31, 32, 33, 62, 63, 64];

/// The most calls of a case, and how many of a hundred empty the table.
const CALLS: (usize, usize) = (40, 2);

/// A table that is not sound answers all calls alike until it is emptied.
const CALLS_OF_UNSOUND: (usize, usize) = (12, 15);

/// A longer beginning of a message is not used, so that a body stays small.
const LONGEST_PREFIX: usize = 2_000;

/// Several calls on one table.
pub fn several(prng: &mut Prng) -> Case {
    let mut scene = Scene::new(prng);
    let mut shape = CALLS;
    if prng.chance(15) {
        scene.spoil(prng);
        shape = CALLS_OF_UNSOUND;
    }
    let (most, emptying) = shape;
    let records = scene.records.clone();
    let mut list = Vec::new();
    for _ in 0..prng.between(1, most) {
        let call = if prng.chance(emptying) { Call::Empty } else { scene.call(prng) };
        scene.change(&call);
        list.push(call);
    }
    calls(&records, &list)
}

/// One call on a table of the right length.
pub fn one(prng: &mut Prng) -> Case {
    let mut scene = Scene::new(prng);
    if prng.chance(8) {
        scene.spoil_record(prng);
    }
    let call = match prng.below(100) {
        0..=4 => Call::Empty,
        5..=40 => scene.entering(prng),
        _ => scene.arriving(prng, |message| message.whole <= LONGEST_SHOWN),
    };
    one_call(&scene.records, &call)
}

/// A table as it is after the calls so far, and the ids of the case.
struct Scene {
    records: Vec<Record>,
    ids: Vec<u32>,
}

impl Scene {
    /// A sound table with requests at random places, and few ids besides
    /// theirs.
    fn new(prng: &mut Prng) -> Scene {
        let count = prng.pick(&COUNTS);
        let others = prng.between(2, 9);
        let ids = some_ids(prng, count + others);
        let mut records = vec![Record::Free; RECORDS];
        for (record, id) in records.iter_mut().zip(&ids[..count]) {
            *record = Record::Held { id: *id, kind: request_type(prng) };
        }
        prng.shuffle(&mut records);
        Scene { records, ids }
    }

    /// Makes the table unsound in one way.
    fn spoil(&mut self, prng: &mut Prng) {
        if prng.chance(60) {
            return self.spoil_record(prng);
        }
        let length = match prng.below(5) {
            0 => prng.pick(&[0, 1, 2 * RECORDS]),
            1 => prng.below(RECORDS),
            2 => prng.between(RECORDS + 1, MOST_RECORDS),
            _ => prng.pick(&[RECORDS - 1, RECORDS + 1]),
        };
        self.records.resize(length, Record::Free);
    }

    /// One record gets a type that no request has, or the id of another one.
    fn spoil_record(&mut self, prng: &mut Prng) {
        let mut places: Vec<usize> = (0..RECORDS).collect();
        prng.shuffle(&mut places);
        let id = match self.records[places[0]] {
            Record::Held { id, .. } => id,
            Record::Free => prng.pick(&self.other_ids()),
        };
        if prng.chance(50) {
            self.records[places[0]] = Record::Held { id, kind: bad_type(prng) };
        } else {
            for place in &places[..2] {
                self.records[*place] = Record::Held { id, kind: request_type(prng) };
            }
        }
    }

    fn call(&self, prng: &mut Prng) -> Call {
        match prng.below(100) {
            0..=11 => Call::Look(self.any_id(prng)),
            12..=49 => self.entering(prng),
            _ => self.arriving(prng, |message| message.prefix.len() <= LONGEST_PREFIX),
        }
    }

    /// Does the call, so that the next ones fit.
    fn change(&mut self, call: &Call) {
        let records = &mut self.records;
        let _ = match call {
            Call::Empty => empty(records),
            Call::Enter { id, kind } => enter(records, *id, *kind),
            Call::Arrive(message) => arrive(records, &message.bytes()).id_and_kind().map(|_| ()),
            Call::Look(_) => Ok(()),
        };
    }

    fn any_id(&self, prng: &mut Prng) -> u32 {
        prng.pick(&self.ids)
    }

    /// The requests in the table.
    fn held(&self) -> Vec<(u32, u8)> {
        let held = |record: &Record| match *record {
            Record::Held { id, kind } => Some((id, kind)),
            Record::Free => None,
        };
        self.records.iter().filter_map(held).collect()
    }

    /// The ids that are not outstanding.
    fn other_ids(&self) -> Vec<u32> {
        let held = self.held();
        let other = |id: &u32| held.iter().all(|(held, _)| held != id);
        self.ids.iter().copied().filter(other).collect()
    }

    /// Most often an id that is not outstanding, with a type that may be
    /// entered.
    fn entering(&self, prng: &mut Prng) -> Call {
        let mut id = self.any_id(prng);
        let others = self.other_ids();
        if !others.is_empty() && prng.chance(70) {
            id = prng.pick(&others);
        }
        let kind = if prng.chance(8) { bad_type(prng) } else { request_type(prng) };
        Call::Enter { id, kind }
    }

    /// A reply of which the message fits into the case.
    fn arriving(&self, prng: &mut Prng, fits: fn(&Filled) -> bool) -> Call {
        loop {
            let message = self.any_reply(prng);
            if fits(&message) {
                return Call::Arrive(message);
            }
        }
    }

    /// Most often a reply to one of the requests.
    fn any_reply(&self, prng: &mut Prng) -> Filled {
        let held = self.held();
        let id = self.any_id(prng);
        if prng.chance(6) {
            return with_id(message(prng, Side::Reply), id);
        }
        if held.is_empty() || prng.chance(12) {
            let kind = request_type(prng);
            return answer(prng, id, kind + REPLY_OFFSET);
        }
        let (id, kind) = prng.pick(&held);
        let kind = reply_type(prng, kind);
        answer(prng, id, kind)
    }
}

/// Ids that are all different. Many are near each other or differ in a bit.
fn some_ids(prng: &mut Prng, count: usize) -> Vec<u32> {
    let first = id(prng);
    let mut ids = vec![0, u32::MAX];
    while ids.len() < count {
        let next = match prng.below(3) {
            0 => first ^ 1 << prng.below(32),
            1 => first.wrapping_add(prng.below(MOST_RECORDS) as u32),
            _ => id(prng),
        };
        if !ids.contains(&next) {
            ids.push(next);
        }
    }
    prng.shuffle(&mut ids);
    ids
}

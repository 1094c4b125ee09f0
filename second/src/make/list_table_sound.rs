//! Tables that are sound and tables that are not, with every call on each.

use crate::make::call::{calls, Call};
use crate::make::case::{Case, Filled};
use crate::make::list_table_refused::each_refusal;
use crate::make::tables::{
    enter, first_held, fitting, free, free_with, held, id_at, kind_at, success, unknown_response,
    OTHER_ID,
};
use crate::methods::{method_of_request, GETCREDS, METHODS};
use crate::outstanding::{Record, RECORDS, TYPE_LIMIT};

/// Numbers of records around the right one, and the most of a case.
const LENGTHS: [usize; 8] = [0, 1, 2, 63, 64, 65, 128, 200];

/// Numbers of requests in a sound table.
pub const COUNTS: [usize; 6] = [0, 1, 31, 32, 63, 64];

/// The places of an id that is held twice.
pub const PAIRS: [[usize; 2]; 5] = [[0, 1], [0, 63], [31, 32], [62, 63], [5, 40]];

/// The first place, one between, the last.
pub const PLACES: [usize; 3] = [0, 31, 63];

/// Types that no outstanding request has.
pub const BAD_TYPES: [u8; 5] = [TYPE_LIMIT, 0x81, 0x97, 0x98, 0xff];

pub fn add(out: &mut Vec<Case>) {
    for length in LENGTHS {
        out.push(every_call(&free(length), id_at(0), kind_at(0)));
        out.push(every_call(&held(length), id_at(0), kind_at(0)));
    }
    for count in COUNTS {
        add_looks(out, count);
    }
    for pair in PAIRS {
        for base in [free(RECORDS), held(RECORDS)] {
            add_twice(out, &base, pair);
        }
    }
    for place in PLACES {
        add_types(out, place);
    }
    add_several(out);
}

/// Each refusal that the table has for this id, then replies to it, then the
/// same table emptied and used.
fn every_call(records: &[Record], id: u32, kind: u8) -> Case {
    let mut list = vec![
        Call::Look(id),
        Call::Look(OTHER_ID),
        enter(id, kind),
        enter(OTHER_ID, kind),
        enter(OTHER_ID, TYPE_LIMIT),
        enter(id, 0xff),
    ];
    list.extend(each_refusal(id));
    let creds = method_of_request(GETCREDS).unwrap();
    list.extend([success(creds, id), fitting(OTHER_ID, kind), fitting(id, kind)]);
    list.extend([unknown_response(id), unknown_response(id_at(1)), Call::Look(id)]);
    list.extend([Call::Empty, Call::Look(id), enter(id, kind), Call::Look(id)]);
    list.extend([fitting(id, kind), Call::Arrive(Filled::exact(b"")), Call::Empty]);
    calls(records, &list)
}

/// Every id that is outstanding, and some that are not.
fn add_looks(out: &mut Vec<Case>, count: usize) {
    let records = first_held(count);
    let ids = (0..=count).map(id_at).chain([OTHER_ID, 0, 1, u32::MAX]);
    let looks: Vec<Call> = ids.map(Call::Look).collect();
    out.push(calls(&records, &looks));
    let backwards: Vec<Record> = records.into_iter().rev().collect();
    out.push(calls(&backwards, &looks));
}

/// The id of the first place stands again at the second, with the same type
/// and with another.
fn add_twice(out: &mut Vec<Case>, base: &[Record], [first, second]: [usize; 2]) {
    for kinds in [[kind_at(first); 2], [0x00, 0x7f]] {
        let id = id_at(first);
        let mut records = base.to_vec();
        records[first] = Record::Held { id, kind: kinds[0] };
        records[second] = Record::Held { id, kind: kinds[1] };
        out.push(every_call(&records, id, kinds[0]));
    }
}

/// A type that no request has, alone and among 63 others, and the greatest
/// one that a request has.
fn add_types(out: &mut Vec<Case>, place: usize) {
    let id = id_at(place);
    for kind in BAD_TYPES.into_iter().chain([TYPE_LIMIT - 1]) {
        for mut records in [free(RECORDS), held(RECORDS)] {
            records[place] = Record::Held { id, kind };
            out.push(every_call(&records, id, kind_at(place)));
        }
    }
}

/// Two causes at once, an id that is held often, and ids of zeros and ones.
fn add_several(out: &mut Vec<Case>) {
    let access = METHODS[0].number;
    for id in [0, u32::MAX] {
        out.push(every_call(&free_with(&[(0, id, access)]), id, access));
        out.push(every_call(&free_with(&[(0, id, access), (63, id, access)]), id, access));
    }
    for length in [63, RECORDS, 65] {
        let same = vec![Record::Held { id: id_at(0), kind: access }; length];
        out.push(every_call(&same, id_at(0), access));
        let mut both = held(length);
        both[0] = Record::Held { id: id_at(0), kind: 0xff };
        both[length - 1] = Record::Held { id: id_at(0), kind: TYPE_LIMIT };
        out.push(every_call(&both, id_at(0), access));
    }
    // The cause is the record that is one too many.
    let mut records = free(RECORDS);
    records.push(Record::Held { id: id_at(0), kind: access });
    out.push(every_call(&records, id_at(0), access));
}

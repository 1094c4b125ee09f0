//! Entering: every type, the first free record, the full table.

use crate::make::call::{calls, Call};
use crate::make::case::Case;
use crate::make::tables::{
    enter, first_held, fitting, free, held, held_without, id_at, kind_at, OTHER_ID,
};
use crate::outstanding::{RECORDS, TYPE_LIMIT};

/// So many types are entered in one case.
const TYPES_OF_A_CASE: usize = 16;

/// Free places of a table that is full otherwise.
pub const GAPS: [&[usize]; 8] =
    [&[0], &[1], &[31], &[62], &[63], &[5, 40], &[0, 63], &[10, 20, 30, 40]];

const ACCESS: u8 = 0x01;
const GETATTR: u8 = 0x02;

pub fn add(out: &mut Vec<Case>) {
    add_all(out);
    add_types(out);
    add_orders(out);
    for gap in GAPS {
        add_gap(out, gap);
    }
    add_freed(out);
    add_ids(out);
}

/// One request after the other until the table is full, and one more; then
/// one is answered, and there is room again.
fn add_all(out: &mut Vec<Case>) {
    let mut list: Vec<Call> =
        (0..=RECORDS).map(|place| enter(id_at(place), kind_at(place))).collect();
    list.extend([0, 31, 63].map(|place| enter(id_at(place), kind_at(place))));
    list.extend([enter(OTHER_ID, TYPE_LIMIT), enter(id_at(0), TYPE_LIMIT), Call::Look(id_at(63))]);
    list.extend([fitting(id_at(63), kind_at(63)), enter(OTHER_ID, 0x7f), enter(id_at(63), 0x00)]);
    out.push(calls(&free(RECORDS), &list));
    list.insert(0, Call::Empty);
    out.push(calls(&held(RECORDS), &list));
    let back: Vec<Call> =
        (0..RECORDS).rev().map(|place| fitting(id_at(place), kind_at(place))).collect();
    out.push(calls(&held(RECORDS), &back));
}

/// Every type, in a table with room and in a full one.
fn add_types(out: &mut Vec<Case>) {
    let types: Vec<u8> = (0..=u8::MAX).collect();
    for some in types.chunks(TYPES_OF_A_CASE) {
        let one = |kind: &u8| enter(0x6000_0000 + u32::from(*kind), *kind);
        let looked = |kind: &u8| [one(kind), Call::Look(0x6000_0000 + u32::from(*kind))];
        let list: Vec<Call> = some.iter().flat_map(looked).collect();
        out.push(calls(&first_held(40), &list));
        let list: Vec<Call> = some.iter().map(one).collect();
        out.push(calls(&held(RECORDS), &list));
    }
}

/// Two causes at once, in tables with room for many, for one and for none.
fn add_orders(out: &mut Vec<Case>) {
    for count in [1, 63, 64] {
        let last = id_at(count - 1);
        let list = [
            enter(last, TYPE_LIMIT),
            enter(last, 0xff),
            enter(last, kind_at(count - 1)),
            enter(last, 0x00),
            enter(OTHER_ID, TYPE_LIMIT),
            enter(OTHER_ID, TYPE_LIMIT - 1),
            enter(OTHER_ID, TYPE_LIMIT - 1),
            enter(OTHER_ID, TYPE_LIMIT),
        ];
        out.push(calls(&first_held(count), &list));
    }
}

/// More requests than there are free records, in a table with these gaps.
fn add_gap(out: &mut Vec<Case>, gap: &[usize]) {
    let mut list: Vec<Call> =
        (0..=gap.len() as u32).map(|more| enter(OTHER_ID + more, GETATTR)).collect();
    list.extend([Call::Look(OTHER_ID), enter(OTHER_ID, GETATTR)]);
    out.push(calls(&held_without(gap), &list));
}

/// Records that replies free are used next, the lowest one first.
fn add_freed(out: &mut Vec<Case>) {
    let answered = |place: usize| fitting(id_at(place), kind_at(place));
    for places in [&[20][..], &[40, 10], &[10, 40], &[63, 0, 32], &[7, 6, 5]] {
        let mut list: Vec<Call> = places.iter().map(|place| answered(*place)).collect();
        list.extend((0..=places.len() as u32).map(|more| enter(OTHER_ID + more, ACCESS)));
        out.push(calls(&held(RECORDS), &list));
        out.push(calls(&first_held(RECORDS - 1), &list));
    }
    // The same id again, of another type.
    let list = [
        answered(20),
        enter(id_at(20), 0x7f),
        answered(20),
        Call::Look(id_at(20)),
        fitting(id_at(20), 0x7f),
        enter(id_at(20), kind_at(20)),
        answered(20),
    ];
    out.push(calls(&held(RECORDS), &list));
}

/// Ids at the ends, and ids of one bit.
fn add_ids(out: &mut Vec<Case>) {
    let ends = [0, 1, 0x7fff_ffff, 0x8000_0000, u32::MAX - 1, u32::MAX];
    let bits = (0..32).map(|bit| 1u32 << bit);
    let ids: Vec<u32> = ends.into_iter().chain(bits).collect();
    let mut list: Vec<Call> = ids.iter().map(|id| enter(*id, GETATTR)).collect();
    list.extend(ids.iter().map(|id| Call::Look(*id)));
    list.extend(ids.iter().map(|id| fitting(*id, GETATTR)));
    out.push(calls(&free(RECORDS), &list));
}

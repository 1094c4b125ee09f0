//! Single calls on tables of the right length, with short messages.

use crate::answer::LONGEST_SHOWN;
use crate::make::call::{one_call, Call};
use crate::make::case::Case;
use crate::make::list_table_enter::GAPS;
use crate::make::list_table_refused::{behind_id, REFUSED};
use crate::make::list_table_sound::{BAD_TYPES, COUNTS, PAIRS, PLACES};
use crate::make::tables::{
    enter, failure, first_held, fitting, fitting_of, free, free_with, held, held_without, id_at,
    kind_at, success, unknown_response, OTHER_ID, UNKNOWN_TYPES,
};
use crate::methods::{ACCESS, GETCREDS, METHODS, REPLY_OFFSET};
use crate::outstanding::{Record, RECORDS, TYPE_LIMIT};

const ID: u32 = 0x8182_8384;

const GETATTR: u8 = 0x02;

pub fn add(out: &mut Vec<Case>) {
    for records in [free(RECORDS), first_held(31), held(RECORDS)] {
        out.push(one_call(&records, &Call::Empty));
    }
    add_entered(out);
    add_answered(out);
    add_refused(out);
    add_kept(out);
    add_unsound(out);
}

fn add_entered(out: &mut Vec<Case>) {
    for count in COUNTS {
        let records = first_held(count);
        for call in [enter(OTHER_ID, GETATTR), enter(id_at(0), GETATTR), enter(id_at(0), 0xff)] {
            out.push(one_call(&records, &call));
        }
    }
    for gap in GAPS {
        out.push(one_call(&held_without(gap), &enter(OTHER_ID, ACCESS)));
    }
    for kind in [0x00, GETCREDS, 0x18, TYPE_LIMIT - 1, TYPE_LIMIT, 0xff] {
        out.push(one_call(&first_held(5), &enter(ID, kind)));
    }
    for id in [0, 1, u32::MAX] {
        out.push(one_call(&first_held(5), &enter(id, ACCESS)));
        out.push(one_call(&free_with(&[(63, id, ACCESS)]), &enter(id, ACCESS)));
    }
}

/// A reply of every kind that frees its record.
fn add_answered(out: &mut Vec<Case>) {
    for method in &METHODS {
        let records = free_with(&[(9, ID, method.number), (10, OTHER_ID, method.number)]);
        out.push(one_call(&records, &success(method, ID)));
        if method.number != GETCREDS {
            out.push(one_call(&records, &failure(method.reply_number(), ID, -2)));
        }
    }
    for kind in UNKNOWN_TYPES.into_iter().chain([ACCESS]) {
        out.push(one_call(&free_with(&[(0, ID, kind)]), &unknown_response(ID)));
    }
    for place in PLACES {
        out.push(one_call(&held(RECORDS), &fitting(id_at(place), kind_at(place))));
    }
}

/// Replies that the reader refuses, of the request's own type.
fn add_refused(out: &mut Vec<Case>) {
    for text in REFUSED {
        let reply = behind_id(id_at(1), text);
        out.push(one_call(&held(RECORDS), &reply));
    }
    for length in 0..5 {
        out.push(one_call(&first_held(2), &fitting_of(length, id_at(0), ACCESS)));
    }
    // Neither the id nor the type counts before the reader's refusal.
    out.push(one_call(&free(RECORDS), &behind_id(ID, "82 00000000")));
    out.push(one_call(&free_with(&[(0, ID, ACCESS)]), &behind_id(ID, "83 00000000 00000001 80")));
}

/// Accepted replies to no request, and of a type that does not answer the request.
fn add_kept(out: &mut Vec<Case>) {
    for records in [free(RECORDS), held(RECORDS)] {
        out.push(one_call(&records, &fitting(OTHER_ID, GETATTR)));
        out.push(one_call(&records, &unknown_response(OTHER_ID)));
        out.push(one_call(&records, &failure(GETATTR + REPLY_OFFSET, OTHER_ID, -2)));
    }
    for kind in UNKNOWN_TYPES.into_iter().chain([ACCESS, GETCREDS]) {
        out.push(one_call(&free_with(&[(0, ID, kind)]), &fitting(ID, GETATTR)));
    }
    // Ids that differ in one bit, and in the order of their bytes.
    for other in [ID ^ 1, ID ^ 1 << 16, ID ^ 1 << 31, ID.swap_bytes()] {
        out.push(one_call(&free_with(&[(0, ID, GETATTR)]), &fitting(other, GETATTR)));
    }
    // The longest message, for the request of its type and for another.
    let longest = fitting_of(LONGEST_SHOWN, ID, GETATTR);
    for kind in [GETATTR, ACCESS] {
        out.push(one_call(&free_with(&[(0, ID, kind)]), &longest));
    }
}

/// Tables that are not sound: the calls of one that is.
fn add_unsound(out: &mut Vec<Case>) {
    for [first, second] in PAIRS {
        let mut records = held(RECORDS);
        records[second] = Record::Held { id: id_at(first), kind: kind_at(second) };
        let reply = fitting(id_at(first), kind_at(first));
        for call in [Call::Empty, enter(OTHER_ID, ACCESS), reply] {
            out.push(one_call(&records, &call));
        }
    }
    for kind in BAD_TYPES {
        let records = free_with(&[(0, id_at(0), kind_at(0)), (63, OTHER_ID, kind)]);
        let runt = fitting_of(4, id_at(0), ACCESS);
        for call in [enter(id_at(0), 0xff), fitting(id_at(0), kind_at(0)), runt] {
            out.push(one_call(&records, &call));
        }
    }
}

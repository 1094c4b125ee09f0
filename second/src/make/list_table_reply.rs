//! Replies that arrive: every type for a request of every type, places, and
//! orders.

use crate::make::call::{calls, Call};
use crate::make::case::Case;
use crate::make::tables::{
    enter, failure, fitting, free_with, held, id_at, kind_at, success, unknown_response, OTHER_ID,
};
use crate::methods::{method_of_request, GETCREDS, METHODS};
use crate::outstanding::{RECORDS, TYPE_LIMIT};

const FIRST_ID: u32 = 0x7172_7374;
const SECOND_ID: u32 = 0x7172_7375;
const THIRD_ID: u32 = 0x7172_7376;

/// The ends of the results of failures.
const RESULTS: [i32; 3] = [-1, -22, i32::MIN];

/// All orders of three replies.
const ORDERS: [[usize; 3]; 6] = [[0, 1, 2], [0, 2, 1], [1, 0, 2], [1, 2, 0], [2, 0, 1], [2, 1, 0]];

pub fn add(out: &mut Vec<Case>) {
    for kind in 0..TYPE_LIMIT {
        add_types(out, kind);
    }
    add_failures(out);
    add_places(out);
    for order in ORDERS {
        add_order(out, order);
    }
    add_rounds(out);
}

/// Replies of all other types, which keep the record; then the one that fits,
/// and the unknown response for a second request of the same type.
fn add_types(out: &mut Vec<Case>, kind: u8) {
    let mut list = Vec::new();
    for method in METHODS.iter().filter(|method| method.number != kind) {
        list.push(success(method, FIRST_ID));
        if method.number != GETCREDS {
            list.push(failure(method.reply_number(), SECOND_ID, -2));
        }
    }
    list.extend([Call::Look(FIRST_ID), fitting(FIRST_ID, kind), fitting(FIRST_ID, kind)]);
    list.extend([unknown_response(SECOND_ID), Call::Look(SECOND_ID)]);
    out.push(calls(&free_with(&[(10, FIRST_ID, kind), (50, SECOND_ID, kind)]), &list));
}

/// A failure of the request's own type answers it.
fn add_failures(out: &mut Vec<Case>) {
    for method in METHODS.iter().filter(|method| method.number != GETCREDS) {
        for result in RESULTS {
            let reply = failure(method.reply_number(), FIRST_ID, result);
            let records = free_with(&[(1, SECOND_ID, GETCREDS), (2, FIRST_ID, method.number)]);
            out.push(calls(&records, &[reply.clone(), Call::Look(FIRST_ID), reply]));
        }
    }
}

/// The record of the reply is freed wherever it stands, and no other one.
fn add_places(out: &mut Vec<Case>) {
    for place in [0, 1, 31, 32, 62, 63] {
        let (id, kind) = (id_at(place), kind_at(place));
        let list = [fitting(id, kind), Call::Look(id), fitting(id, kind), enter(id, 0x00)];
        out.push(calls(&held(RECORDS), &list));
        out.push(calls(&free_with(&[(place, id, kind)]), &list));
        let unknown = [unknown_response(id), unknown_response(id), enter(OTHER_ID, kind)];
        out.push(calls(&held(RECORDS), &unknown));
    }
}

/// Three replies end in the same records, whatever their order.
fn add_order(out: &mut Vec<Case>, order: [usize; 3]) {
    let requests = [(5, FIRST_ID, 0x02), (6, SECOND_ID, 0x10), (40, THIRD_ID, 0x42)];
    let reply = |nth: usize| fitting(requests[nth].1, requests[nth].2);
    let list: Vec<Call> = order[..2].iter().map(|nth| reply(*nth)).collect();
    out.push(calls(&free_with(&requests), &list));
    let list: Vec<Call> = order.iter().map(|nth| reply(*nth)).collect();
    out.push(calls(&free_with(&requests), &list));
    let places = [0, 33, 63];
    let replies = order.map(|nth| fitting(id_at(places[nth]), kind_at(places[nth])));
    out.push(calls(&held(RECORDS), &replies));
}

/// One record that is used again and again, and the same id each time.
fn add_rounds(out: &mut Vec<Case>) {
    let mut list = Vec::new();
    for method in &METHODS {
        list.extend([enter(FIRST_ID, method.number), success(method, FIRST_ID)]);
    }
    let access = method_of_request(0x01).unwrap();
    list.push(success(access, FIRST_ID));
    out.push(calls(&free_with(&[(0, SECOND_ID, 0x01)]), &list));
}

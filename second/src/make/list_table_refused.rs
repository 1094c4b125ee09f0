//! Replies that the reader refuses, and replies that no request waits for.

use crate::hex::from_hex;
use crate::make::call::{calls, Call};
use crate::make::case::{Case, Filled};
use crate::make::styles::{Style, STYLES};
use crate::make::tables::{
    failure, fitting, fitting_of, free, free_with, held, id_at, kind_at, success, success_message,
    unknown_response, OTHER_ID,
};
use crate::methods::{method_of_request, Method, GETCREDS, METHODS, REPLY_OFFSET};
use crate::outstanding::{RECORDS, TYPE_LIMIT};
use crate::refusal::LONGEST;

/// Replies behind their id: short, with malformed texts, with another result
/// than the data, and of types that no reply has.
pub const REFUSED: [&str; 22] = [
    "82",
    "81 000000",
    "82 00000000",
    "8b 00000000 00000000000000",
    "95 00000000 0000000000000001 00",
    "83 00000000 00000005 61",
    "83 00000000 00000001 80",
    "83 00000000 00000003 eda080",
    "90 00000002 00000001 61",
    "90 00000000 00000001 61",
    "90 7fffffff 00000000",
    "90 00000001 ffffffff 61",
    "93 00000000 ffffffff",
    "93 00000000 00000002 00000001 61",
    "93 00000000 00000002 00000001 61 00000001 ff",
    "97",
    "97 ffffffea",
    "97 00000002 c080",
    "00",
    "7f",
    "98",
    "ff 00000000",
];

const GETATTR: u8 = 0x02;

const ID: u32 = 0x5152_5354;
const WAITING_ID: u32 = 0x5152_5355;

pub fn add(out: &mut Vec<Case>) {
    for text in REFUSED {
        add_refused(out, text);
    }
    for method in &METHODS {
        add_cuts(out, method);
        add_not_outstanding(out, method);
    }
    add_lengths(out);
    add_spellings(out);
}

/// A reply given as its id and the hex behind it.
pub fn behind_id(id: u32, text: &str) -> Call {
    Call::Arrive(Filled::exact(&[&id.to_be_bytes()[..], &from_hex(text)].concat()))
}

/// One reply to this id for each refusal of the reader.
pub fn each_refusal(id: u32) -> Vec<Call> {
    let texts = ["98", "82 00000000", "83 00000000 00000001 80", "90 00000002 00000001 61"];
    let mut list = vec![fitting_of(4, id, GETATTR), fitting_of(LONGEST + 1, id, GETATTR)];
    list.extend(texts.map(|text| behind_id(id, text)));
    list
}

/// The reply comes for a request of its type, of another type, and for none;
/// then the request of its type is answered.
fn add_refused(out: &mut Vec<Case>, text: &str) {
    let kind = from_hex(text)[0] % REPLY_OFFSET;
    let records = free_with(&[(3, WAITING_ID, (kind + 1) % TYPE_LIMIT), (60, ID, kind)]);
    let list = [
        behind_id(ID, text),
        Call::Look(ID),
        behind_id(WAITING_ID, text),
        behind_id(OTHER_ID, text),
        fitting(ID, kind),
        behind_id(ID, text),
    ];
    out.push(calls(&records, &list));
}

/// Every cut, then the whole reply, then bytes behind it for another request.
fn add_cuts(out: &mut Vec<Case>, method: &Method) {
    let kind = method.number;
    let records = free_with(&[(0, WAITING_ID, kind), (63, ID, kind)]);
    let whole = success_message(method, ID, Style::Counting).whole;
    let mut list: Vec<Call> = (0..=whole).map(|length| fitting_of(length, ID, kind)).collect();
    list.extend([fitting_of(whole + 9, ID, kind), fitting_of(whole + 9, WAITING_ID, kind)]);
    out.push(calls(&records, &list));
}

/// Replies of every kind to an id that is not outstanding, in a free table, in
/// a full one, and after the reply that was waited for.
fn add_not_outstanding(out: &mut Vec<Case>, method: &Method) {
    let replies = |id: u32| {
        let mut list = vec![success(method, id), unknown_response(id)];
        if method.number != GETCREDS {
            list.push(failure(method.reply_number(), id, -2));
        }
        list
    };
    out.push(calls(&free(RECORDS), &replies(OTHER_ID)));
    out.push(calls(&held(RECORDS), &replies(OTHER_ID)));
    for style in STYLES {
        let mut list = vec![Call::Arrive(success_message(method, ID, style))];
        list.extend(replies(ID));
        out.push(calls(&free_with(&[(30, ID, method.number)]), &list));
    }
}

/// Replies of the greatest length, and of one byte more.
fn add_lengths(out: &mut Vec<Case>) {
    let records = held(RECORDS);
    for place in [0, 1, 63] {
        let (id, kind) = (id_at(place), kind_at(place));
        let list = [
            fitting_of(LONGEST + 1, id, kind),
            fitting_of(LONGEST + 1, OTHER_ID, kind),
            fitting_of(LONGEST, id, kind),
            fitting_of(LONGEST, id, kind),
        ];
        out.push(calls(&records, &list));
    }
    // A runt's id is not looked at.
    for length in 0..5 {
        let runts = [id_at(0), OTHER_ID].map(|id| fitting_of(length, id, GETATTR));
        out.push(calls(&records, &runts));
    }
}

/// Ids that are one another's bytes in another order, or differ in one bit.
fn add_spellings(out: &mut Vec<Case>) {
    let access = method_of_request(0x01).unwrap();
    let turned = ID.swap_bytes();
    let list = [success(access, turned), Call::Look(turned), success(access, ID)];
    out.push(calls(&free_with(&[(7, ID, access.number)]), &list));
    let mut list: Vec<Call> = (0..32).map(|bit| success(access, ID ^ 1 << bit)).collect();
    list.push(success(access, ID));
    out.push(calls(&free_with(&[(7, ID, access.number)]), &list));
}

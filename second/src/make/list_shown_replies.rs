//! Replies of every method for what an answer's own functions show.

use crate::hex::from_hex;
use crate::make::case::{shown, Case, Filled, Side};
use crate::make::list_rows::REPLIES;
use crate::make::list_shown_requests::SURROGATE;
use crate::make::put::{reply_draft, side_draft, Put};
use crate::make::styles::{id, puts, Style};
use crate::methods::{Field, Kind, Method, METHODS};

/// A room for the names of the replies here, with some bytes behind them.
const ROOM: usize = 20;

/// Read replies with results around the length of the data, getcreds with
/// what would be a failure, the unknown response, and types that no reply has.
const OTHERS: [&str; 12] = [
    "00000009 90 00000000 00000003 616263",
    "00000009 90 00000003 00000003 616263",
    "00000009 90 00000004 00000003 616263",
    "00000009 90 7fffffff 00000003 616263",
    "00000009 97 fffffffe",
    "00000009 80",
    "00000009 80 00000000 00000001 00000001 61",
    "00000009 00 00000000 00000001 00000001 61",
    "00000009 13 00000000 00000001 00000001 61",
    "00000009 7f 00000000 00000001 00000001 61",
    "00000009 98 00000000 00000001 00000001 61",
    "00000009 ff 00000000 00000001 00000001 61",
];

pub fn add(out: &mut Vec<Case>) {
    for text in REPLIES.into_iter().chain(OTHERS) {
        out.push(reply(ROOM, &from_hex(text)));
    }
    for method in &METHODS {
        add_successes(out, method);
        add_rooms(out, method);
        add_length(out, method);
        add_failures(out, method);
        add_texts(out, method);
    }
}

fn reply(room: usize, message: &[u8]) -> Case {
    shown(Side::Reply, room, message)
}

fn success(method: &Method, style: Style) -> Vec<u8> {
    side_draft(Side::Reply, method, id(style), &puts(method.reply, style)).bytes
}

fn add_successes(out: &mut Vec<Case>, method: &Method) {
    out.push(reply(ROOM, &success(method, Style::Counting)));
    if !method.reply.is_empty() {
        out.push(reply(ROOM, &success(method, Style::Zeros)));
        out.push(reply(ROOM, &success(method, Style::Greatest)));
    }
}

/// Buffers around the one that the reply is written again into.
fn add_rooms(out: &mut Vec<Case>, method: &Method) {
    let message = success(method, Style::Counting);
    for room in [0, message.len() - 1, message.len(), message.len() + 9] {
        out.push(reply(room, &message));
    }
}

/// One byte too few, and bytes behind the known part.
fn add_length(out: &mut Vec<Case>, method: &Method) {
    let message = success(method, Style::Counting);
    out.push(reply(ROOM, &message[..message.len() - 1]));
    out.push(reply(ROOM, &[&message[..], b"\xffz\0"].concat()));
}

/// A negative result with the fields behind it. The reply to getcreds has no
/// result.
fn add_failures(out: &mut Vec<Case>, method: &Method) {
    let puts = puts(method.reply, Style::Counting);
    out.push(reply(ROOM, &reply_draft(method, 8, -22, &puts).bytes));
}

/// A long text or data, and a malformed text.
fn add_texts(out: &mut Vec<Case>, method: &Method) {
    let [Field { kind: Kind::Text | Kind::Data, .. }] = method.reply else {
        return;
    };
    for run in [&[b'l'; 200][..], SURROGATE] {
        let puts = [Put::Run(Filled::exact(run))];
        out.push(reply(ROOM, &side_draft(Side::Reply, method, 8, &puts).bytes));
    }
}

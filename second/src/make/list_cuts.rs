//! Every cut of a message of every method, and bytes behind the known part.

use crate::make::case::{again, front, listing, read, Case, Filled, Side};
use crate::make::put::side_draft;
use crate::make::styles::{id, puts, Style};
use crate::methods::{Method, GETCREDS, METHODS, READ, READDIR, UNKNOWN_RESPONSE};
use crate::store::{header, push_signed};

pub fn add(out: &mut Vec<Case>) {
    for method in &METHODS {
        for side in [Side::Request, Side::Reply] {
            let bytes = sample(side, method);
            add_cuts(out, side, &bytes);
            add_behind(out, side, &bytes);
        }
        add_front_cuts(out, &sample(Side::Request, method));
        add_failure_cuts(out, method);
    }
    add_unknown_cuts(out);
}

fn sample(side: Side, method: &Method) -> Vec<u8> {
    let fields = if side == Side::Request { method.request } else { method.reply };
    side_draft(side, method, id(Style::Counting), &puts(fields, Style::Counting)).bytes
}

fn add_cuts(out: &mut Vec<Case>, side: Side, bytes: &[u8]) {
    for length in 0..bytes.len() {
        out.push(read(side, &Filled::exact(&bytes[..length])));
    }
    // The case's own cut: its prefix is longer than the message.
    let cut = Filled::padded(bytes, bytes.len() - 1, 0);
    out.push(again(side, 100, &cut));
}

fn add_behind(out: &mut Vec<Case>, side: Side, bytes: &[u8]) {
    let known = bytes.len();
    for (behind, fill) in [(1, 0xff), (4, 0x00), (9, 0x80), (300, 0x61), (65_536 - known, 0)] {
        let message = Filled::padded(bytes, known + behind, fill);
        out.push(read(side, &message));
        if behind == 1 || behind == 300 {
            out.push(again(side, known + 3, &message));
        }
        if behind == 9 && side == Side::Request {
            out.push(listing(300, &message));
        }
    }
}

/// The front answers a cut request with the failure of its own method.
fn add_front_cuts(out: &mut Vec<Case>, bytes: &[u8]) {
    for length in 0..bytes.len() {
        let message = Filled::exact(&bytes[..length]);
        out.push(front(14, &message));
        out.push(listing(40, &message));
    }
}

/// A failure is cut inside its result; of some methods also in the header.
fn add_failure_cuts(out: &mut Vec<Case>, method: &Method) {
    if method.number == GETCREDS {
        return;
    }
    let mut failure = header(0x9192_9394, method.reply_number());
    push_signed(&mut failure, 4, -2);
    let least = if [0x02, READ, READDIR].contains(&method.number) { 0 } else { 5 };
    for length in least..=failure.len() {
        out.push(read(Side::Reply, &Filled::exact(&failure[..length])));
    }
}

/// Unknown requests and the unknown response, cut and with bytes behind.
fn add_unknown_cuts(out: &mut Vec<Case>) {
    for (side, kind) in
        [(Side::Request, 0x42), (Side::Request, 0xff), (Side::Reply, UNKNOWN_RESPONSE)]
    {
        let prefix = header(0xa1a2_a3a4, kind);
        for length in (0..12).chain([300, 65_536, 65_537]) {
            out.push(read(side, &Filled::padded(&prefix, length, 0x80)));
        }
        out.push(again(side, 9, &Filled::padded(&prefix, 4, 0)));
        out.push(again(side, 9, &Filled::padded(&prefix, 11, 0)));
    }
}

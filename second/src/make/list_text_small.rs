//! Malformed texts for the ops of small programs.

use crate::answer::LONGEST_SHOWN;
use crate::make::call::{one_call, Call};
use crate::make::case::{shown, Case, Filled, Side};
use crate::make::list_text_ends::{broken_off, FRONTS};
use crate::make::list_text_fields::{spoiled, BAD, GOOD};
use crate::make::list_text_places::inserted;
use crate::make::strings::{reply_with, request_with, waiting_for, BROKEN, REPLY_STRINGS};

/// A room with which every reply here could be written again.
const ROOM: usize = 100;

/// The places of the path at which a single call's text is malformed.
const PLACES: [usize; 3] = [0, 7, 12];

pub fn add(out: &mut Vec<Case>) {
    for (turn, broken) in BROKEN.iter().enumerate() {
        let texts = inserted(broken);
        add_shown(out, turn, &texts[turn]);
        for place in PLACES {
            out.push(arriving(reply_with(turn + place, &texts[place])));
        }
    }
    for (shift, front) in FRONTS.iter().enumerate() {
        // Every second one: each way of breaking off stays, behind some front.
        for (nth, broken) in broken_off(front).iter().enumerate().skip(shift % 2).step_by(2) {
            out.push(arriving(broken.reply(shift + nth)));
        }
    }
    for nth in 0..GOOD.len() {
        out.push(arriving(spoiled(nth, BAD[nth % BAD.len()])));
    }
    add_long(out);
}

fn arriving(reply: Filled) -> Case {
    one_call(&waiting_for(&reply), &Call::Arrive(reply))
}

/// Nothing is shown of a refused message.
fn add_shown(out: &mut Vec<Case>, turn: usize, text: &[u8]) {
    out.push(shown(Side::Request, ROOM, &request_with(3 * turn, text).bytes()));
    out.push(shown(Side::Reply, ROOM, &reply_with(turn, text).bytes()));
}

/// The longest texts of a single call, malformed at their last byte.
fn add_long(out: &mut Vec<Case>) {
    for turn in [0, REPLY_STRINGS - 1] {
        let around = reply_with(turn, b"").whole;
        let mut text = vec![b'l'; LONGEST_SHOWN - around];
        text[LONGEST_SHOWN - around - 1] = 0xc3;
        out.push(arriving(reply_with(turn, &text)));
    }
}

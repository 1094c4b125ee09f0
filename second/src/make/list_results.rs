//! Results of every sign, and read replies whose result and data differ.

use crate::make::case::{again, read, Case, Filled, Side};
use crate::make::put::reply_draft;
use crate::make::styles::{puts, Style};
use crate::methods::{Method, METHODS, READ, REPLY_OFFSET};
use crate::store::{header, push, push_signed};

const RESULTS: [i32; 8] = [0, 1, 7, 256, i32::MAX, -1, -22, i32::MIN];

pub fn add(out: &mut Vec<Case>) {
    for method in &METHODS {
        for result in RESULTS {
            add_result(out, method, result);
        }
    }
    for result in [-3, -1, 0, 1, 2, 3, 4, i32::MAX] {
        for length in 0..5 {
            add_data_length(out, result, length);
        }
        add_lying_data(out, result);
    }
}

fn add_result(out: &mut Vec<Case>, method: &Method, result: i32) {
    let mut bare = header(8, method.reply_number());
    push_signed(&mut bare, 4, result);
    out.push(read(Side::Reply, &Filled::exact(&bare)));
    let puts = puts(method.reply, Style::Counting);
    let whole = reply_draft(method, 8, result, &puts).whole();
    if !method.reply.is_empty() {
        out.push(read(Side::Reply, &whole));
    }
    if result == i32::MIN || result == 7 {
        out.push(again(Side::Reply, whole.whole, &whole));
    }
    if result == -1 {
        // Behind a negative result nothing is looked at.
        out.push(read(Side::Reply, &Filled::padded(&bare, 30, 0xff)));
    }
}

fn read_reply(result: i32, length: u32) -> Vec<u8> {
    let mut bytes = header(9, READ + REPLY_OFFSET);
    push_signed(&mut bytes, 4, result);
    push(&mut bytes, 4, u64::from(length));
    bytes
}

fn add_data_length(out: &mut Vec<Case>, result: i32, length: usize) {
    let bytes = read_reply(result, length as u32);
    let whole = Filled::padded(&bytes, 13 + length, b'd');
    out.push(read(Side::Reply, &whole));
    out.push(again(Side::Reply, 20, &whole));
    if length > 0 {
        out.push(read(Side::Reply, &Filled::padded(&bytes, 12 + length, b'd')));
    }
}

/// A data length that does not fit is short, whatever the result.
fn add_lying_data(out: &mut Vec<Case>, result: i32) {
    for length in [0x7fff_ffff, 0x8000_0000, 0xffff_ffff, 0xffff_fff3] {
        let bytes = read_reply(result, length);
        out.push(read(Side::Reply, &Filled::padded(&bytes, 17, b'd')));
    }
}

//! Messages of 65,535 to 65,537 bytes.

use crate::make::case::{again, front, listing, read, Case, Filled, Side};
use crate::make::put::size;
use crate::make::styles::{puts, Style};
use crate::methods::{Method, GETCREDS, METHODS, READ, READDIR, REPLY_OFFSET};
use crate::store::{header, push};

const WHOLES: [usize; 3] = [65_535, 65_536, 65_537];

pub fn add(out: &mut Vec<Case>) {
    for whole in WHOLES {
        for method in &METHODS {
            add_request(out, method, whole);
        }
        for kind in [0x00, 0x18, 0x42, 0x80, 0xff] {
            let message = Filled::padded(&header(3, kind), whole, 0xee);
            out.push(read(Side::Request, &message));
            out.push(read(Side::Reply, &message));
            out.push(front(6, &message));
        }
        add_replies(out, whole);
        add_names(out, whole);
        add_bad(out, whole);
    }
}

/// The first text fills the message; the fields behind are zero.
fn add_request(out: &mut Vec<Case>, method: &Method, whole: usize) {
    let mut prefix = header(4, method.number);
    if method.number != GETCREDS {
        let others = size(method.request, &puts(method.request, Style::Zeros));
        push(&mut prefix, 4, (whole - 5 - others) as u64);
    }
    let message = Filled::padded(&prefix, whole, 0);
    out.push(read(Side::Request, &message));
    if method.number % 4 == 1 {
        out.push(listing(300, &message));
        out.push(front(9, &message));
        out.push(again(Side::Request, whole, &message));
    }
}

fn add_replies(out: &mut Vec<Case>, whole: usize) {
    let text = (whole - 13) as u64;
    for (kind, result, length) in
        [(0x83, 0, text), (READ + REPLY_OFFSET, text, text), (READ + REPLY_OFFSET, 0, text)]
    {
        let mut prefix = header(5, kind);
        push(&mut prefix, 4, result);
        push(&mut prefix, 4, length);
        let message = Filled::padded(&prefix, whole, b'r');
        out.push(read(Side::Reply, &message));
        out.push(again(Side::Reply, 65_536, &message));
        out.push(again(Side::Reply, whole - 1, &message));
    }
    let mut creds = header(5, GETCREDS + REPLY_OFFSET);
    push(&mut creds, 4, (whole - 9) as u64);
    out.push(read(Side::Reply, &Filled::padded(&creds, whole, b'c')));
    out.push(again(Side::Reply, 70_000, &Filled::padded(&creds, whole, b'c')));
}

/// One long name behind two short ones; a long last name with one byte short.
fn add_names(out: &mut Vec<Case>, whole: usize) {
    for missing in [0, 1] {
        let mut prefix = header(6, READDIR + REPLY_OFFSET);
        push(&mut prefix, 4, 0);
        push(&mut prefix, 4, 3);
        prefix.extend_from_slice(&[0, 0, 0, 1, b'n', 0, 0, 0, 0]);
        push(&mut prefix, 4, (whole - 26 + missing) as u64);
        let message = Filled::padded(&prefix, whole, b'n');
        out.push(read(Side::Reply, &message));
        out.push(again(Side::Reply, 65_540, &message));
    }
}

/// Long texts that are not well-formed, at their beginning and inside.
fn add_bad(out: &mut Vec<Case>, whole: usize) {
    for (start, fill) in [(&[0xffu8][..], b'a'), (b"ab\xe2\x82", b'a'), (b"", 0x80)] {
        let mut prefix = header(7, 0x0f);
        push(&mut prefix, 4, (whole - 9) as u64);
        prefix.extend_from_slice(start);
        let message = Filled::padded(&prefix, whole, fill);
        out.push(read(Side::Request, &message));
        out.push(front(9, &message));
    }
}

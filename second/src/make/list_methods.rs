//! Accepted messages of every method with boundary values, read, listed,
//! written and written again.

use crate::make::case::{again, front, listing, read, write_getcreds, Case, Filled, Side};
use crate::make::put::{
    good_result, request_draft, side_draft, writer_request, writer_success, Put,
};
use crate::make::styles::{id, puts, Style, STYLES};
use crate::methods::{Method, GETCREDS, METHODS, READDIR};

pub fn add(out: &mut Vec<Case>) {
    for method in &METHODS {
        for style in STYLES {
            add_request(out, method, style);
            add_reply(out, method, style);
        }
    }
    add_bools(out);
}

fn add_request(out: &mut Vec<Case>, method: &Method, style: Style) {
    let puts = puts(method.request, style);
    let message = request_draft(method, id(style), &puts).whole();
    out.push(read(Side::Request, &message));
    out.push(listing(300, &message));
    if style == Style::Zeros {
        out.push(front(0, &message));
    }
    out.push(again(Side::Request, message.whole, &message));
    out.push(writer_request(method, message.whole, id(style), &puts));
}

fn add_reply(out: &mut Vec<Case>, method: &Method, style: Style) {
    let puts = puts(method.reply, style);
    let message = side_draft(Side::Reply, method, id(style), &puts).whole();
    out.push(read(Side::Reply, &message));
    out.push(again(Side::Reply, message.whole, &message));
    out.push(again(Side::Reply, message.whole - 1, &message));
    match (method.number, &puts[..]) {
        (GETCREDS, [Put::Run(creds)]) => {
            out.push(write_getcreds(message.whole, id(style), creds));
        }
        (READDIR, _) => {}
        _ => {
            let result = good_result(method, &puts);
            out.push(writer_success(method, message.whole, id(style), result, &puts));
        }
    }
}

/// Every byte but 0 is true; true is written as 1.
fn add_bools(out: &mut Vec<Case>) {
    let fsync = METHODS.iter().find(|method| method.name == "fsync").unwrap();
    for byte in [0, 1, 2, 3, 0x7f, 0x80, 0xfe, 0xff] {
        let path = Put::Run(Filled::exact(b"/f"));
        let puts = [path, Put::Number(byte), Put::Number(0x0102_0304_0506_0708)];
        let message = request_draft(fsync, 77, &puts).whole();
        out.push(read(Side::Request, &message));
        out.push(listing(300, &message));
        out.push(again(Side::Request, 30, &message));
        out.push(writer_request(fsync, 30, 77, &puts));
    }
}

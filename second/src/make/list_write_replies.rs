//! The reply writers but readdir's: rooms, each refusal, and pairs of causes.

use crate::make::case::{
    again, write_failure, write_getcreds, write_unknown_response, Case, Filled, Side,
};
use crate::make::list_write_requests::rooms;
use crate::make::put::{good_result, reply_draft, writer_success, Put};
use crate::make::styles::{id, puts, Style};
use crate::methods::{method_of_request, Method, GETCREDS, METHODS, READ, READDIR};

pub fn add(out: &mut Vec<Case>) {
    for method in &METHODS {
        if method.number != READDIR && method.number != GETCREDS {
            add_rooms(out, method);
            add_signs(out, method);
        }
        add_failures(out, method.reply_number());
    }
    for kind in [0x00, 0x17, 0x80, 0x98, 0xff] {
        add_failures(out, kind);
    }
    add_readlink(out);
    add_read(out);
    add_getcreds(out);
    for room in (0..=10).chain([65_537, 70_000]) {
        out.push(write_unknown_response(room, 0xe1e2_e3e4));
    }
}

fn add_rooms(out: &mut Vec<Case>, method: &Method) {
    let id = id(Style::Counting);
    let puts = puts(method.reply, Style::Counting);
    let result = good_result(method, &puts);
    let message = reply_draft(method, id, result, &puts).whole();
    for room in rooms(message.whole) {
        out.push(writer_success(method, room, id, result, &puts));
    }
    for room in [0, message.whole + 1, 65_540] {
        out.push(again(Side::Reply, room, &message));
    }
}

fn add_signs(out: &mut Vec<Case>, method: &Method) {
    let puts = puts(method.reply, Style::Counting);
    for (room, result) in [(120, 1), (120, i32::MAX), (120, i32::MIN), (0, -1)] {
        out.push(writer_success(method, room, 4, result, &puts));
    }
}

fn add_failures(out: &mut Vec<Case>, kind: u8) {
    for (room, code) in [(9, -1), (8, -1), (9, i32::MIN), (20, 0), (0, 0), (20, i32::MAX)] {
        out.push(write_failure(room, 5, kind, code));
    }
}

fn success(number: u8, room: usize, result: i32, run: Filled) -> Case {
    let method = method_of_request(number).unwrap();
    writer_success(method, room, 6, result, &[Put::Run(run)])
}

fn add_readlink(out: &mut Vec<Case>) {
    let bad = Filled::exact(b"ab\xed\xa0\x80");
    let long_bad = Filled::padded(b"\xf4\x90", 66_000, b'k');
    for (room, result) in [(30, 0), (0, 0), (30, -1), (30, i32::MAX)] {
        out.push(success(0x03, room, result, bad.clone()));
        out.push(success(0x03, room, result, long_bad.clone()));
    }
    for room in [0, 65_535, 65_536, 70_000] {
        out.push(success(0x03, room, 0, Filled::padded(b"", 65_523, b'l')));
        out.push(success(0x03, room, 0, Filled::padded(b"", 65_524, b'l')));
        out.push(success(0x03, room, -1, Filled::padded(b"", 65_524, b'l')));
    }
}

/// Results around the data's length; data too long for a message.
fn add_read(out: &mut Vec<Case>) {
    for length in [0, 1, 2, 256] {
        for result in [0, 1, 2, 3, 255, 256, 257, -1, i32::MAX] {
            let data = Filled::padded(b"\xff\x80", length, b'd');
            out.push(success(READ, 300, result, data.clone()));
            out.push(success(READ, 3, result, data));
        }
    }
    for length in [65_523usize, 65_524, 70_000] {
        for result in [length as i32, length as i32 - 1, -1] {
            let data = Filled::padded(b"", length, 0xfe);
            out.push(success(READ, 65_536, result, data.clone()));
            out.push(success(READ, 65_535, result, data));
        }
    }
}

fn add_getcreds(out: &mut Vec<Case>) {
    for room in rooms(12) {
        out.push(write_getcreds(room, 7, &Filled::exact(b"abc")));
        out.push(write_getcreds(room, 7, &Filled::exact(b"ab\xc3")));
    }
    out.push(write_getcreds(9, 7, &Filled::exact(b"")));
    out.push(write_getcreds(8, 7, &Filled::exact(b"")));
    for length in [65_527, 65_528] {
        for room in [0, 65_535, 65_536, 70_000] {
            out.push(write_getcreds(room, 7, &Filled::padded(b"", length, b'p')));
            out.push(write_getcreds(room, 7, &Filled::padded(b"\xc0", length, b'p')));
        }
    }
}

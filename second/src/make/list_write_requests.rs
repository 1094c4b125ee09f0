//! The request writers: rooms, each refusal, and pairs of causes.

use crate::make::case::{again, write_unknown, Case, Filled, Side};
use crate::make::put::{request_draft, size, writer_request, Put};
use crate::make::styles::{id, puts, Style};
use crate::methods::{Kind, Method, METHODS};

pub fn add(out: &mut Vec<Case>) {
    for method in &METHODS {
        let puts = puts(method.request, Style::Counting);
        add_rooms(out, method, &puts);
        for (index, field) in method.request.iter().enumerate() {
            if field.kind == Kind::Text {
                add_bad_text(out, method, &puts, index);
            }
            if field.kind.width().is_none() {
                add_long(out, method, &puts, index);
            }
        }
    }
    add_two_long(out);
    for kind in [0x00, 0x18, 0x80, 0xff, 0x01, 0x17] {
        for room in (0..=10).chain([65_537]) {
            out.push(write_unknown(room, 0xf1f2_f3f4, kind));
        }
    }
}

/// Rooms around the exact one, and more than a message may take.
pub fn rooms(exact: usize) -> [usize; 7] {
    [exact, 0, exact - 1, exact + 1, exact + 50, 65_537, 70_000]
}

/// The puts with another text or data in one place.
fn with_run(puts: &[Put], index: usize, run: Filled) -> Vec<Put> {
    let mut changed = puts.to_vec();
    changed[index] = Put::Run(run);
    changed
}

fn add_rooms(out: &mut Vec<Case>, method: &Method, puts: &[Put]) {
    let id = id(Style::Counting);
    let message = request_draft(method, id, puts).whole();
    for room in rooms(message.whole) {
        out.push(writer_request(method, room, id, puts));
    }
    for room in [0, message.whole - 1, message.whole + 1, 65_540] {
        out.push(again(Side::Request, room, &message));
    }
}

/// A bad text alone, without room, and oversize.
fn add_bad_text(out: &mut Vec<Case>, method: &Method, puts: &[Put], index: usize) {
    let bad = with_run(puts, index, Filled::exact(b"a\xffb"));
    out.push(writer_request(method, 100, 1, &bad));
    out.push(writer_request(method, 0, 1, &bad));
    let long = with_run(puts, index, Filled::padded(b"a\xe2\x82", 66_000, b'b'));
    out.push(writer_request(method, 100, 1, &long));
}

/// A message of exactly 65,536 bytes, and longer ones.
fn add_long(out: &mut Vec<Case>, method: &Method, puts: &[Put], index: usize) {
    let others = 5 + size(method.request, &with_run(puts, index, Filled::exact(b"")));
    let full = with_run(puts, index, Filled::padded(b"/", 65_536 - others, b'c'));
    out.push(writer_request(method, 65_536, 2, &full));
    out.push(writer_request(method, 65_535, 2, &full));
    let over = with_run(puts, index, Filled::padded(b"/", 65_537 - others, b'c'));
    out.push(writer_request(method, 65_537, 2, &over));
    out.push(writer_request(method, 3, 2, &over));
}

/// Two texts, or a text and data, that are oversize only together. The second
/// may be malformed as a text.
fn add_two_long(out: &mut Vec<Case>) {
    let runs = |method: &Method| {
        method.request.iter().filter(|field| field.kind.width().is_none()).count()
    };
    for method in METHODS.iter().filter(|method| runs(method) == 2) {
        let puts = puts(method.request, Style::Counting);
        let first = with_run(&puts, 0, Filled::padded(b"", 40_000, b'd'));
        for prefix in [&b""[..], b"\x80"] {
            let both = with_run(&first, 1, Filled::padded(prefix, 40_000, b'e'));
            out.push(writer_request(method, 70_000, 3, &both));
            out.push(writer_request(method, 0, 3, &both));
        }
    }
}

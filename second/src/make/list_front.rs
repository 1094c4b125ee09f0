//! The front with reply buffers of all small sizes and of large ones.

use crate::hex::from_hex;
use crate::make::case::{front, Case, Filled};
use crate::make::put::{request_draft, Put};
use crate::make::styles::{id, puts, Style};
use crate::methods::{Kind, METHODS};

/// Known and unknown, accepted and refused, in each way.
const REQUESTS: [&str; 12] = [
    "00000001 17",
    "81828384 02 00000001 2f",
    "81828384 00",
    "81828384 18 ffffffff",
    "81828384 80",
    "81828384 ff 00",
    "81828384 01 00000000",
    "81828384 0f",
    "81828384 16 00000001",
    "81828384 01 00000001 80 00",
    "81828384 06 00000000 00000002 c3c3",
    "81828384 11 00000000 00000000 0000000000000000 000000000000",
];

pub fn add(out: &mut Vec<Case>) {
    for request in REQUESTS {
        for room in (0..=10).chain([64, 65_537]) {
            out.push(front(room, &Filled::exact(&from_hex(request))));
        }
    }
    for length in 0..5 {
        let cut = from_hex("8182838402");
        for room in 0..=10 {
            out.push(front(room, &Filled::exact(&cut[..length])));
        }
    }
    for oversize in ["91929394 02", "91929394 42", "91929394 ff", "91929394 80"] {
        for room in (0..=10).chain([70_000]) {
            out.push(front(room, &Filled::padded(&from_hex(oversize), 65_537, 0)));
        }
    }
    add_bad_texts(out);
}

/// A bad text in each text field of each method.
fn add_bad_texts(out: &mut Vec<Case>) {
    for method in &METHODS {
        for (index, field) in method.request.iter().enumerate() {
            if field.kind == Kind::Text {
                let mut puts = puts(method.request, Style::Counting);
                puts[index] = Put::Run(Filled::exact(b"\xed\xa0\x80"));
                let message = request_draft(method, id(Style::Ones), &puts).whole();
                out.push(front(11, &message));
                out.push(front(8, &message));
            }
        }
    }
}

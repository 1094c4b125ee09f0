//! Requests of every method for what an answer's own functions show.

use crate::hex::from_hex;
use crate::make::case::{shown, Case, Filled, Side};
use crate::make::list_rows::REQUESTS;
use crate::make::put::{request_draft, Put};
use crate::make::styles::{id, puts, Style, STYLES};
use crate::methods::{method_of_request, Kind, Method, METHODS};
use crate::store::header;

/// A character of two bytes, so many times, is a long text.
const LONG_TEXT: (&str, usize) = ("\u{e9}", 40);

/// A text that is not well-formed: a letter and a surrogate.
pub const SURROGATE: &[u8] = b"a\xed\xa0\x80";

/// Two texts and a number.
const RENAME: u8 = 0x06;

/// The request with a bool, and the bool's place among its fields.
const FSYNC: u8 = 0x0a;
const IS_DATASYNC: usize = 1;

/// Types that no method has.
const UNKNOWN_TYPES: [u8; 7] = [0x00, 0x18, 0x42, 0x7f, 0x80, 0x93, 0xff];

pub fn add(out: &mut Vec<Case>) {
    for row in REQUESTS {
        out.push(request(16, &from_hex(row)));
    }
    for method in &METHODS {
        add_styles(out, method);
        add_rooms(out, method);
        add_length(out, method);
        add_texts(out, method);
    }
    add_cuts(out);
    add_bools(out);
    for type_number in UNKNOWN_TYPES {
        let behind = [&header(0x2122_2324, type_number)[..], &[0; 14]].concat();
        out.push(request(behind.len(), &behind));
    }
}

fn request(room: usize, message: &[u8]) -> Case {
    shown(Side::Request, room, message)
}

fn styled(method: &Method, style: Style) -> Vec<u8> {
    request_draft(method, id(style), &puts(method.request, style)).bytes
}

fn counting(method: &Method) -> Vec<u8> {
    styled(method, Style::Counting)
}

/// Boundary values, and texts of no, one, two, three and four bytes.
fn add_styles(out: &mut Vec<Case>, method: &Method) {
    for style in STYLES {
        let message = styled(method, style);
        out.push(request(message.len(), &message));
    }
}

/// Buffers around the exact one.
fn add_rooms(out: &mut Vec<Case>, method: &Method) {
    let message = counting(method);
    for room in [0, message.len() - 1, message.len() + 9] {
        out.push(request(room, &message));
    }
}

/// One byte too few, and bytes behind the known part.
fn add_length(out: &mut Vec<Case>, method: &Method) {
    let message = counting(method);
    out.push(request(message.len(), &message[..message.len() - 1]));
    out.push(request(message.len(), &[&message[..], b"\xffz\0"].concat()));
}

/// Each text or data long, and each text malformed.
fn add_texts(out: &mut Vec<Case>, method: &Method) {
    let (character, times) = LONG_TEXT;
    for (index, field) in method.request.iter().enumerate() {
        if field.kind.width().is_none() {
            let message = with_run(method, index, character.repeat(times).as_bytes());
            out.push(request(message.len(), &message));
        }
        if field.kind == Kind::Text {
            let message = with_run(method, index, SURROGATE);
            out.push(request(message.len(), &message));
        }
    }
}

/// A message with another text or data in one field.
pub fn with_run(method: &Method, index: usize, run: &[u8]) -> Vec<u8> {
    let mut puts = puts(method.request, Style::Counting);
    puts[index] = Put::Run(Filled::exact(run));
    request_draft(method, id(Style::Counting), &puts).bytes
}

/// Every cut, from a runt of no bytes on.
fn add_cuts(out: &mut Vec<Case>) {
    let message = counting(method_of_request(RENAME).unwrap());
    for length in 0..message.len() {
        out.push(request(message.len(), &message[..length]));
    }
}

/// Every byte but 0 is true and is written as 1.
fn add_bools(out: &mut Vec<Case>) {
    let method = method_of_request(FSYNC).unwrap();
    for byte in [0, 1, 7, 0x80, 0xff] {
        let mut puts = puts(method.request, Style::Counting);
        puts[IS_DATASYNC] = Put::Number(byte);
        let message = request_draft(method, 0x77, &puts).bytes;
        out.push(request(message.len(), &message));
    }
}

//! Write requests, those of the page's own row without a path, and the ways in
//! which a case reads them.

use crate::listing::list_request;
use crate::make::case::{again, front, listing, read, Case, Filled, Side};
use crate::make::list_text::{method, run};
use crate::make::put::{request_draft, writer_request, Draft, Put};
use crate::methods::Method;
use crate::refusal::HEADER_SIZE;

const ID: u32 = 0x5152_5354;

/// Offset and handle. No two bytes are alike, so that a shifted field shows.
const NUMBERS: [u64; 2] = [0x2122_2324_2526_2728, 0x3132_3334_3536_3738];

/// The bytes of a write request besides its path and its data: the header, two
/// lengths, offset and handle.
pub const AROUND: usize = HEADER_SIZE + 2 * 4 + 2 * 8;

/// The bytes of a failure, with which the front answers.
const FAILURE: usize = HEADER_SIZE + 4;

/// More than any listing of a write request.
const LISTING: usize = 300;

/// Around both sizes that an answer of the front has.
const FRONT_ROOMS: [usize; 5] = [0, 4, 5, 8, 9];

fn puts(path: &Filled, data: &Filled, numbers: [u64; 2]) -> Vec<Put> {
    let runs = [path, data].map(|run| Put::Run(run.clone()));
    [runs, numbers.map(Put::Number)].concat()
}

pub fn write_draft(path: &[u8], data: &[u8]) -> Draft {
    write_with(&Filled::exact(path), &Filled::exact(data), NUMBERS)
}

/// A write request with this offset and this handle.
pub fn write_with(path: &Filled, data: &Filled, numbers: [u64; 2]) -> Draft {
    request_draft(method("write"), ID, &puts(path, data, numbers))
}

/// The writer with this path and this data.
pub fn writer(room: usize, path: &Filled, data: &Filled) -> Case {
    writer_request(method("write"), room, ID, &puts(path, data, NUMBERS))
}

/// The row as the page has it, without the path.
pub fn old_row() -> Method {
    let write = method("write");
    Method { request: &write.request[1..], ..*write }
}

pub fn old_draft(data: &[u8], offset: u64) -> Draft {
    let [_, handle] = NUMBERS;
    request_draft(&old_row(), ID, &[run(data), Put::Number(offset), Put::Number(handle)])
}

/// The reader, the front, the listing, and writing again.
fn ways(message: &Filled) -> [Case; 4] {
    [
        read(Side::Request, message),
        front(FAILURE, message),
        listing(LISTING, message),
        again(Side::Request, message.whole, message),
    ]
}

pub fn add_every_way(out: &mut Vec<Case>, message: &Filled) {
    out.extend(ways(message));
}

/// Each message through the reader, and through one more way in its turn.
pub fn add_in_turn(out: &mut Vec<Case>, messages: &[Filled]) {
    for (turn, message) in messages.iter().enumerate() {
        let [reader, others @ ..] = ways(message);
        out.push(reader);
        out.push(others[turn % others.len()].clone());
    }
}

/// Buffers of exactly the needed size, and of one byte less.
pub fn add_exact(out: &mut Vec<Case>, message: &Filled) {
    let listed = list_request(&message.bytes()).len();
    out.push(read(Side::Request, message));
    out.extend(FRONT_ROOMS.map(|room| front(room, message)));
    out.extend([listed, listed - 1].map(|room| listing(room, message)));
    out.extend([message.whole, message.whole - 1].map(|room| again(Side::Request, room, message)));
}

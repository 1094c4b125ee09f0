//! An ordinary Rust program for the same messages, written from document 01: slices, `Result` and `?`. It gives the
//! types of crate `tushalets`, so that answers can be compared. Readers and writers check each text once, byte by byte.
//! All of it is inlined where it is called, as in a program that has these functions as its own.
pub mod reading;
mod writing;

pub use reading::{read_reply, read_request};
pub use writing::{write_reply, write_request};

use tushalets::numbers::{refusals, types};
use tushalets::{Fronted, Received, Refusal, Reply, Request};

/// Bytes of id and type.
const HEADER_SIZE: usize = 5;

/// The front's result for a damaged request.
const INVALID_ARGUMENT: i32 = -22;

pub fn refuse<T>(number: u8, place: usize) -> Result<T, Refusal> {
    Err(Refusal { number, place })
}

/// The provider's front.
#[inline(always)]
pub fn front(message: &[u8], out: &mut [u8]) -> Result<Fronted, Refusal> {
    let refusal = match read_request(message) {
        Ok(Received { id, body: Request::Unknown { .. }, .. }) => return answer(id, &Reply::UnknownResponse, out),
        Ok(_) => return Ok(Fronted::HandedOn),
        Err(refusal) => refusal,
    };
    let Some(&[a, b, c, d, type_number]) = message.first_chunk::<HEADER_SIZE>() else {
        return Err(refusal);
    };
    let id = u32::from_be_bytes([a, b, c, d]);
    match refusal.number {
        refusals::OVERSIZE => answer(id, &Reply::UnknownResponse, out),
        _ => answer(id, &Reply::Failure { type_number: type_number + types::REPLY, code: INVALID_ARGUMENT }, out),
    }
}

fn answer(id: u32, reply: &Reply<'_, tushalets::NameRun<'_>>, out: &mut [u8]) -> Result<Fronted, Refusal> {
    write_reply(id, reply, out).map(Fronted::Stored)
}

//! The provider's front: answers the requests that need no file system.

use crate::methods::REPLY_OFFSET;
use crate::refusal::{Refusal, OVERSIZE, TRUNCATED_HEADER, TYPE_PLACE};
use crate::request::{read_request, Request};
use crate::write_reply::{write_failure, write_unknown_response};

/// The result for a request that is short or has a bad text.
const INVALID: i32 = -22;

#[derive(Debug, PartialEq, Eq)]
pub enum Front {
    /// The request is for the provider; nothing was stored.
    HandedOn,
    /// So many bytes were stored in the reply buffer.
    Stored(usize),
    /// Nothing was stored.
    Refused(Refusal),
}

pub fn front(request: &[u8], buffer: &mut [u8]) -> Front {
    let stored = match read_request(request) {
        Request::Known { .. } => return Front::HandedOn,
        Request::Unknown { id, .. } => write_unknown_response(buffer, id),
        Request::Refused(refusal) if refusal.number == TRUNCATED_HEADER => {
            return Front::Refused(refusal)
        }
        Request::Refused(refusal) if refusal.number == OVERSIZE => {
            write_unknown_response(buffer, id_of(request))
        }
        Request::Refused(_) => {
            write_failure(buffer, id_of(request), request[TYPE_PLACE] + REPLY_OFFSET, INVALID)
        }
    };
    match stored {
        Ok(length) => Front::Stored(length),
        Err(refusal) => Front::Refused(refusal),
    }
}

/// A refusal shows no field, so the id is taken from the bytes.
fn id_of(request: &[u8]) -> u32 {
    u32::from_be_bytes([request[0], request[1], request[2], request[3]])
}

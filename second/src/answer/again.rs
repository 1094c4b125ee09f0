//! Answer lines of writing again what was read.

use crate::answer::body::Body;
use crate::answer::read::refusal_line;
use crate::answer::write::written_line;
use crate::methods::READDIR;
use crate::names::Names;
use crate::refusal::Refusal;
use crate::reply::{read_reply, Reply};
use crate::request::{read_request, Request};
use crate::write_reply::{
    write_failure, write_getcreds, write_readdir, write_success, write_unknown_response,
};
use crate::write_request::{write_request, write_unknown_request};

pub fn line(body: &mut Body) -> Result<String, String> {
    let side = body.u8()?;
    let buffer = body.buffer()?;
    let message = body.message()?;
    match side {
        0 => Ok(request_line(&message, buffer)),
        1 => Ok(reply_line(&message, buffer)),
        _ => Err(format!("no such side: {side}")),
    }
}

fn request_line(message: &[u8], mut buffer: Vec<u8>) -> String {
    let written = match read_request(message) {
        Request::Known { id, method, values, .. } => {
            write_request(&mut buffer, id, method, &values)
        }
        Request::Unknown { id, kind, .. } => write_unknown_request(&mut buffer, id, kind),
        Request::Refused(refusal) => return refusal_line(refusal),
    };
    written_line(&buffer, written)
}

pub fn reply_line(message: &[u8], mut buffer: Vec<u8>) -> String {
    let written = match read_reply(message) {
        Reply::Success { id, method, result, .. } if method.number == READDIR => {
            names_again(&mut buffer, id, result, message)
        }
        Reply::Success { id, method, result, values, .. } => {
            write_success(&mut buffer, id, method, result, &values)
        }
        Reply::Failure { id, kind, result, .. } => write_failure(&mut buffer, id, kind, result),
        Reply::Credentials { id, creds, .. } => write_getcreds(&mut buffer, id, creds.bytes),
        Reply::UnknownResponse { id, .. } => write_unknown_response(&mut buffer, id),
        Reply::Refused(refusal) => return refusal_line(refusal),
    };
    written_line(&buffer, written)
}

/// Collects the names into the one run that the writer takes.
fn names_again(buffer: &mut [u8], id: u32, result: i32, message: &[u8]) -> Result<usize, Refusal> {
    let mut run = Vec::new();
    let mut lengths = Vec::new();
    for name in Names::open(message) {
        run.extend_from_slice(name.bytes);
        lengths.push(name.bytes.len() as u32);
    }
    write_readdir(buffer, id, result, &run, &lengths)
}

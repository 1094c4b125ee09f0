//! Answer lines of what an answer's own functions show.

use std::array;

use crate::answer::again;
use crate::answer::body::Body;
use crate::answer::read::{part_text, refusal_line, REPLY_PARTS, REQUEST_PARTS};
use crate::answer::write::written_line;
use crate::hash::hash;
use crate::methods::READDIR;
use crate::names::{collect_names, Names};
use crate::refusal::{Refusal, BUFFER_TOO_SMALL};
use crate::reply::{read_reply, reply_part, Reply};
use crate::request::{read_request, request_part, Request};
use crate::write_request::write_request;

/// So many lengths of names have room.
const LENGTHS: usize = 16;

pub fn line(body: &mut Body) -> Result<String, String> {
    let side = body.u8()?;
    let buffer = body.shown_buffer()?;
    let message = body.shown_message()?;
    match side {
        0 => Ok(request_line(message, buffer)),
        1 => Ok(reply_line(message, buffer)),
        _ => Err(format!("no such side: {side}")),
    }
}

fn request_line(message: &[u8], mut buffer: Vec<u8>) -> String {
    let parts = REQUEST_PARTS.map(|name| request_part(message, name));
    let mut line = format!("request{}", sizes_text(&parts));
    if let Request::Known { id, method, values, .. } = read_request(message) {
        let written = write_request(&mut buffer, id, method, &values);
        line += &format!(" {}", written_line(&buffer, written));
    }
    line
}

fn reply_line(message: &[u8], buffer: Vec<u8>) -> String {
    let mut line = format!("reply{}", reply_sizes(message));
    for name in Names::open(message) {
        line += &format!(" name={}", part_text(&name));
    }
    line += " end";
    if let Reply::Success { method, .. } = read_reply(message) {
        if method.number == READDIR {
            line += &collected_text(message, buffer.clone());
        }
        line += &format!(" {}", again::reply_line(message, buffer));
    }
    line
}

/// Length and checksum of each part of a reply.
pub fn reply_sizes(message: &[u8]) -> String {
    sizes_text(&REPLY_PARTS.map(|name| reply_part(message, name)))
}

/// Length and checksum of each part.
fn sizes_text(parts: &[&[u8]]) -> String {
    parts.iter().map(|part| format!(" {}:{}", part.len(), hash(part))).collect()
}

/// The names of a readdir reply, copied into the run.
fn collected_text(message: &[u8], mut run: Vec<u8>) -> String {
    let mut lengths: [u32; LENGTHS] = array::from_fn(|index| index as u32 * 7 + 3);
    let told = match collect_names(message, &mut run, &mut lengths) {
        Some(names) => format!("collected {} {}", names.count, names.length),
        None => refusal_line(Refusal { number: BUFFER_TOO_SMALL, place: 0 }),
    };
    let list: Vec<u8> = lengths.into_iter().flat_map(u32::to_be_bytes).collect();
    format!(" {told} {} {}", hash(&run), hash(&list))
}

//! Answer lines of the writers.

use crate::answer::body::{Body, Given};
use crate::answer::read::refusal_line;
use crate::hash::hash;
use crate::methods::{method_of_reply, method_of_request, GETCREDS, READDIR};
use crate::refusal::Refusal;
use crate::value::Value;
use crate::write_reply::{
    write_failure, write_getcreds, write_readdir, write_success, write_unknown_response,
};
use crate::write_request::{write_request, write_unknown_request};

type Line = Result<String, String>;

/// What a writer answered, and the buffer after it.
pub fn written_line(buffer: &[u8], written: Result<usize, Refusal>) -> String {
    match written {
        Ok(length) => stored_line(buffer, length),
        Err(refusal) => refused_line(buffer, refusal),
    }
}

pub fn refused_line(buffer: &[u8], refusal: Refusal) -> String {
    format!("{} {}", refusal_line(refusal), hash(buffer))
}

pub fn stored_line(buffer: &[u8], length: usize) -> String {
    let (stored, rest) = buffer.split_at(length);
    format!("stored {length} {} {}", hash(stored), hash(rest))
}

fn values(given: &[Given]) -> Vec<Value<'_>> {
    given.iter().map(Given::value).collect()
}

pub fn request(body: &mut Body) -> Line {
    let mut buffer = body.buffer()?;
    let id = body.u32()?;
    let kind = body.u8()?;
    let method = method_of_request(kind).ok_or(format!("no method of request {kind}"))?;
    let given = body.fields(method.request)?;
    let written = write_request(&mut buffer, id, method, &values(&given));
    Ok(written_line(&buffer, written))
}

pub fn unknown_request(body: &mut Body) -> Line {
    let mut buffer = body.buffer()?;
    let written = write_unknown_request(&mut buffer, body.u32()?, body.u8()?);
    Ok(written_line(&buffer, written))
}

pub fn success(body: &mut Body) -> Line {
    let mut buffer = body.buffer()?;
    let id = body.u32()?;
    let kind = body.u8()?;
    let method = method_of_reply(kind)
        .filter(|method| method.number != READDIR && method.number != GETCREDS)
        .ok_or(format!("no such success: {kind}"))?;
    let result = body.i32()?;
    let given = body.fields(method.reply)?;
    let written = write_success(&mut buffer, id, method, result, &values(&given));
    Ok(written_line(&buffer, written))
}

pub fn readdir(body: &mut Body) -> Line {
    let mut buffer = body.buffer()?;
    let id = body.u32()?;
    let result = body.i32()?;
    let run = body.run()?;
    let lengths = body.lengths()?;
    let written = write_readdir(&mut buffer, id, result, &run, &lengths);
    Ok(written_line(&buffer, written))
}

pub fn failure(body: &mut Body) -> Line {
    let mut buffer = body.buffer()?;
    let written = write_failure(&mut buffer, body.u32()?, body.u8()?, body.i32()?);
    Ok(written_line(&buffer, written))
}

pub fn getcreds(body: &mut Body) -> Line {
    let mut buffer = body.buffer()?;
    let written = write_getcreds(&mut buffer, body.u32()?, &body.run()?);
    Ok(written_line(&buffer, written))
}

pub fn unknown_response(body: &mut Body) -> Line {
    let mut buffer = body.buffer()?;
    let written = write_unknown_response(&mut buffer, body.u32()?);
    Ok(written_line(&buffer, written))
}

//! `l`, `f` and the writers: what is stored into a lent buffer.
//!
//! A message is written by the exported function, and with types too where its texts are well-formed. Both must do the same.

use crate::body::{Body, Malformed};
use crate::given::{self, GivenRequest, GivenSuccess};
use crate::methods::{request_kinds, success_kinds, GETCREDS_REPLY, READDIR_REPLY, SUCCESS_NUMBERS};
use crate::outcome::{agreed_line, Outcome};
use core::str;
use tushalets::{raw, NameRun, Reply, Request, Success};

/// For a reply without numbers.
const NO_NUMBERS: [u64; SUCCESS_NUMBERS] = [0; SUCCESS_NUMBERS];

pub fn show_listing(room: usize, message: &[u8]) -> String {
    Outcome::typed(room, |out| tushalets::list_request(message, out)).listing_line()
}

pub fn show_front(room: usize, message: &[u8]) -> String {
    Outcome::fronted(room, |out| tushalets::front(message, out)).line()
}

pub fn show_request(body: &mut Body<'_>) -> Result<String, Malformed> {
    let (room, id, type_number) = (body.size()?, body.u32()?, body.u8()?);
    let kinds = request_kinds(type_number).ok_or(Malformed("a type that no method has"))?;
    let given = GivenRequest::take(body, kinds)?;
    let raw = Outcome::raw(room, |out| {
        raw::write_request(id, type_number, &given.numbers, &given.runs[0], &given.runs[1], out)
    });
    let typed = given::request(type_number, &given).map(|request| typed_request(room, id, &request));
    Ok(agreed_line(&raw, typed.as_ref()))
}

pub fn show_unknown_request(body: &mut Body<'_>) -> Result<String, Malformed> {
    let (room, id, type_number) = (body.size()?, body.u32()?, body.u8()?);
    let raw = Outcome::raw(room, |out| raw::write_unknown_request(id, type_number, out));
    let typed = typed_request(room, id, &Request::Unknown { type_number });
    Ok(agreed_line(&raw, Some(&typed)))
}

pub fn show_success(body: &mut Body<'_>) -> Result<String, Malformed> {
    let (room, id, type_number, result) = (body.size()?, body.u32()?, body.u8()?, body.i32()?);
    let kinds = success_kinds(type_number).ok_or(Malformed("a type that no such reply has"))?;
    let given = GivenSuccess::take(body, kinds)?;
    let raw =
        Outcome::raw(room, |out| raw::write_reply(id, type_number, result, &given.numbers, &given.runs[0], &[], out));
    let typed =
        given::success(type_number, &given).map(|success| typed_reply(room, id, &Reply::Success { result, success }));
    Ok(agreed_line(&raw, typed.as_ref()))
}

pub fn show_readdir(body: &mut Body<'_>) -> Result<String, Malformed> {
    let (room, id, result) = (body.size()?, body.u32()?, body.i32()?);
    let (names, lengths) = (body.run()?, body.lengths()?);
    let raw = Outcome::raw(room, |out| raw::write_reply(id, READDIR_REPLY, result, &NO_NUMBERS, &names, &lengths, out));
    let success = Success::Readdir(NameRun { names: &names, lengths: &lengths });
    let typed = typed_reply(room, id, &Reply::Success { result, success });
    Ok(agreed_line(&raw, Some(&typed)))
}

pub fn show_failure(body: &mut Body<'_>) -> Result<String, Malformed> {
    let (room, id, type_number, code) = (body.size()?, body.u32()?, body.u8()?, body.i32()?);
    let raw = Outcome::raw(room, |out| raw::write_failure(id, type_number, code, out));
    let typed = typed_reply(room, id, &Reply::Failure { type_number, code });
    Ok(agreed_line(&raw, Some(&typed)))
}

/// The exported writer leaves the result of a getcreds reply aside; a negative one would be refused of another reply.
pub fn show_getcreds(body: &mut Body<'_>) -> Result<String, Malformed> {
    const NO_RESULT: i32 = -1;
    let (room, id, text) = (body.size()?, body.u32()?, body.run()?);
    let raw = Outcome::raw(room, |out| raw::write_reply(id, GETCREDS_REPLY, NO_RESULT, &NO_NUMBERS, &text, &[], out));
    let creds = str::from_utf8(&text).ok();
    let typed = creds.map(|creds| typed_reply(room, id, &Reply::Credentials { creds }));
    Ok(agreed_line(&raw, typed.as_ref()))
}

pub fn show_unknown_response(body: &mut Body<'_>) -> Result<String, Malformed> {
    let (room, id) = (body.size()?, body.u32()?);
    let raw = Outcome::raw(room, |out| raw::write_unknown_response(id, out));
    let typed = typed_reply(room, id, &Reply::UnknownResponse);
    Ok(agreed_line(&raw, Some(&typed)))
}

pub fn typed_request(room: usize, id: u32, request: &Request<'_>) -> Outcome {
    Outcome::typed(room, |out| tushalets::write_request(id, request, out))
}

pub fn typed_reply(room: usize, id: u32, reply: &Reply<'_, NameRun<'_>>) -> Outcome {
    Outcome::typed(room, |out| tushalets::write_reply(id, reply, out))
}

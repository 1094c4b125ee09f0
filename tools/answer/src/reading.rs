//! `q` and `p`: messages read.

use crate::fields::{self, Field};
use crate::{names, shown};
use tushalets::{Received, Refusal, Reply, Request, Success};

/// The parts that a request may show.
const REQUEST_PARTS: [&str; 6] = ["path", "target", "linkpath", "old_path", "new_path", "data"];

/// The parts that a reply may show.
const REPLY_PARTS: [&str; 3] = ["resolved", "data", "creds"];

/// What stands before the fields, and the fields.
type Begun<'a> = (String, Vec<Field<'a>>);

pub fn show_request(message: &[u8]) -> String {
    let (line, fields) = match tushalets::read_request(message) {
        Ok(received) => begin_request(&received),
        Err(refusal) => (show_refusal(refusal), Vec::new()),
    };
    line + &fields::show(message, &fields) + &fields::show_parts(&REQUEST_PARTS, &fields)
}

pub fn show_reply(message: &[u8]) -> String {
    let read = tushalets::read_reply(message);
    let (line, fields) = match &read {
        Ok(received) => begin_reply(received),
        Err(refusal) => (show_refusal(*refusal), Vec::new()),
    };
    let names = match read {
        Ok(Received { body: Reply::Success { success: Success::Readdir(names), .. }, .. }) => Some(names),
        _ => None,
    };
    line + &fields::show(message, &fields)
        + &fields::show_parts(&REPLY_PARTS, &fields)
        + &names.map_or_else(|| names::show_none(message), |names| names::show(message, names))
}

/// A reply that was accepted, without its parts and names.
pub fn show_received(message: &[u8], received: &Received<Reply<'_>>) -> String {
    let (line, fields) = begin_reply(received);
    line + &fields::show(message, &fields)
}

pub fn show_refusal(refusal: Refusal) -> String {
    format!("refused {} at {}", refusal.number, refusal.place)
}

fn begin_request<'a>(received: &Received<Request<'a>>) -> Begun<'a> {
    let Received { id, known, body } = received;
    let (method, fields) = shown::request(body);
    let line = match body {
        Request::Unknown { type_number } => format!("unknown {id} {type_number} {known}"),
        _ => format!("known {id} {method} {known}"),
    };
    (line, fields)
}

fn begin_reply<'a>(received: &Received<Reply<'a>>) -> Begun<'a> {
    let Received { id, known, body } = received;
    match body {
        Reply::Success { result, success } => {
            let (method, fields) = shown::success(success);
            (format!("success {id} {method} {result} {known}"), fields)
        }
        Reply::Failure { type_number, code } => (format!("failure {id} {type_number} {code} {known}"), Vec::new()),
        Reply::Credentials { creds } => (format!("credentials {id} {known}"), shown::credentials(creds)),
        Reply::UnknownResponse => (format!("unknown-response {id} {known}"), Vec::new()),
    }
}

//! Answer lines of the readers and of the names iterator.

use crate::hash::{hash, Hash};
use crate::methods::{Field, Kind};
use crate::names::Names;
use crate::refusal::Refusal;
use crate::reply::{read_reply, reply_part, Reply};
use crate::request::{read_request, request_part, Request};
use crate::value::{Part, Value};

/// So many names of a reply stand singly in its line.
const SINGLE_NAMES: usize = 200;

pub const REQUEST_PARTS: [&str; 6] = ["path", "target", "linkpath", "old_path", "new_path", "data"];
pub const REPLY_PARTS: [&str; 3] = ["resolved", "data", "creds"];

pub fn request_line(message: &[u8]) -> String {
    let parts = REQUEST_PARTS.map(|name| request_part(message, name));
    request_text(message) + &parts_text(&parts)
}

pub fn reply_line(message: &[u8]) -> String {
    let parts = REPLY_PARTS.map(|name| reply_part(message, name));
    reply_text(&read_reply(message)) + &parts_text(&parts) + &names_text(message)
}

fn request_text(message: &[u8]) -> String {
    match read_request(message) {
        Request::Known { id, method, values, known } => {
            let fields = fields_text(method.request, &values);
            format!("known {id} {} {known}{fields}", method.name)
        }
        Request::Unknown { id, kind, known } => format!("unknown {id} {kind} {known}"),
        Request::Refused(refusal) => refusal_line(refusal),
    }
}

pub fn refusal_line(refusal: Refusal) -> String {
    format!("refused {} at {}", refusal.number, refusal.place)
}

pub fn reply_text(reply: &Reply) -> String {
    match reply {
        Reply::Success { id, method, result, values, known } => {
            let fields = fields_text(method.reply, values);
            format!("success {id} {} {result} {known}{fields}", method.name)
        }
        Reply::Failure { id, kind, result, known } => {
            format!("failure {id} {kind} {result} {known}")
        }
        Reply::Credentials { id, creds, known } => {
            format!("credentials {id} {known} creds={}", part_text(creds))
        }
        Reply::UnknownResponse { id, known } => format!("unknown-response {id} {known}"),
        Reply::Refused(refusal) => refusal_line(*refusal),
    }
}

fn fields_text(fields: &[Field], values: &[Value]) -> String {
    let mut text = String::new();
    // The names and their count stand behind.
    let shown = |(field, _): &(&Field, &Value)| field.kind != Kind::Names;
    for (field, value) in fields.iter().zip(values).filter(shown) {
        let shown = match value {
            Value::Unsigned(number) => number.to_string(),
            Value::Signed(number) => number.to_string(),
            Value::Bool(truth) => u8::from(*truth).to_string(),
            Value::Part(part) => part_text(part),
        };
        text += &format!(" {}={shown}", field.name);
    }
    text
}

pub fn part_text(part: &Part) -> String {
    format!("{}:{}:{}", part.start, part.bytes.len(), hash(part.bytes))
}

/// One checksum over those of the parts.
fn parts_text(parts: &[&[u8]]) -> String {
    let mut all = Hash::default();
    parts.iter().for_each(|part| all.feed_number(hash(part)));
    format!(" parts={}", all.value())
}

fn names_text(message: &[u8]) -> String {
    let mut text = String::new();
    let mut count = 0;
    let mut all = Hash::default();
    let mut names = Names::open(message);
    for name in names.by_ref() {
        if count < SINGLE_NAMES {
            text += &format!(" name={}", part_text(&name));
        }
        count += 1;
        all.feed_number(name.start as u64);
        all.feed_number(name.bytes.len() as u64);
        all.feed_number(hash(name.bytes));
    }
    text += &format!(" names={count}:{}", all.value());
    let stays = names.next().is_none() && names.next().is_none();
    text + if stays { " end" } else { " again" }
}

//! The request reader.

use crate::cursor::{check_whole, Cursor};
use crate::methods::{method_of_request, Method};
use crate::refusal::Refusal;
use crate::value::Value;

/// `known` is the length of the known part.
#[derive(Debug, PartialEq)]
pub enum Request<'a> {
    Known { id: u32, method: &'static Method, values: Vec<Value<'a>>, known: usize },
    Unknown { id: u32, kind: u8, known: usize },
    Refused(Refusal),
}

pub fn read_request(message: &[u8]) -> Request<'_> {
    read(message).unwrap_or_else(Request::Refused)
}

fn read(message: &[u8]) -> Result<Request<'_>, Refusal> {
    check_whole(message)?;
    let mut cursor = Cursor::new(message);
    let id = cursor.number(4)? as u32;
    let kind = cursor.number(1)? as u8;
    let Some(method) = method_of_request(kind) else {
        return Ok(Request::Unknown { id, kind, known: cursor.at });
    };
    let values = cursor.fields(method.request)?;
    Ok(Request::Known { id, method, values, known: cursor.at })
}

/// The text or data field of that name; empty if the message has none or is
/// refused.
pub fn request_part<'a>(message: &'a [u8], name: &str) -> &'a [u8] {
    if let Request::Known { method, values, .. } = read_request(message) {
        for (field, value) in method.request.iter().zip(values) {
            if let Value::Part(part) = value {
                if field.name == name {
                    return part.bytes;
                }
            }
        }
    }
    &[]
}

//! The reply reader.

use crate::cursor::{check_whole, Cursor};
use crate::methods::{method_of_reply, Method, GETCREDS, READ, REPLY_OFFSET, UNKNOWN_RESPONSE};
use crate::refusal::{
    refuse, Refusal, DATA_LENGTH_MISMATCH, RESULT_PLACE, TYPE_PLACE, UNEXPECTED_TYPE,
};
use crate::value::{Part, Value};

/// `known` is the length of the known part, `kind` the reply's type.
#[derive(Debug, PartialEq)]
pub enum Reply<'a> {
    Success { id: u32, method: &'static Method, result: i32, values: Vec<Value<'a>>, known: usize },
    Failure { id: u32, kind: u8, result: i32, known: usize },
    Credentials { id: u32, creds: Part<'a>, known: usize },
    UnknownResponse { id: u32, known: usize },
    Refused(Refusal),
}

impl Reply<'_> {
    /// Id and type of an accepted reply.
    pub fn id_and_kind(&self) -> Result<(u32, u8), Refusal> {
        match *self {
            Reply::Success { id, method, .. } => Ok((id, method.reply_number())),
            Reply::Failure { id, kind, .. } => Ok((id, kind)),
            Reply::Credentials { id, .. } => Ok((id, GETCREDS + REPLY_OFFSET)),
            Reply::UnknownResponse { id, .. } => Ok((id, UNKNOWN_RESPONSE)),
            Reply::Refused(refusal) => Err(refusal),
        }
    }
}

pub fn read_reply(message: &[u8]) -> Reply<'_> {
    read(message).unwrap_or_else(Reply::Refused)
}

fn read(message: &[u8]) -> Result<Reply<'_>, Refusal> {
    check_whole(message)?;
    let mut cursor = Cursor::new(message);
    let id = cursor.number(4)? as u32;
    let kind = cursor.number(1)? as u8;
    if kind == UNKNOWN_RESPONSE {
        return Ok(Reply::UnknownResponse { id, known: cursor.at });
    }
    let Some(method) = method_of_reply(kind) else {
        return refuse(UNEXPECTED_TYPE, TYPE_PLACE);
    };
    if method.number == GETCREDS {
        let creds = cursor.text()?;
        return Ok(Reply::Credentials { id, creds, known: cursor.at });
    }
    read_result(cursor, id, method)
}

/// A reply from its result on.
fn read_result<'a>(
    mut cursor: Cursor<'a>,
    id: u32,
    method: &'static Method,
) -> Result<Reply<'a>, Refusal> {
    let kind = method.reply_number();
    let result = cursor.signed()?;
    if result < 0 {
        let known = cursor.at;
        return Ok(Reply::Failure { id, kind, result, known });
    }
    let values = cursor.fields(method.reply)?;
    if data_length_differs(method, result, &values) {
        return refuse(DATA_LENGTH_MISMATCH, RESULT_PLACE);
    }
    let known = cursor.at;
    Ok(Reply::Success { id, method, result, values, known })
}

/// In a read reply the result is the length of the data.
pub fn data_length_differs(method: &Method, result: i32, values: &[Value]) -> bool {
    match values {
        [Value::Part(data)] if method.number == READ => {
            data.bytes.len() as i64 != i64::from(result)
        }
        _ => false,
    }
}

/// The text or data field of that name; empty if the message has none or is
/// refused.
pub fn reply_part<'a>(message: &'a [u8], name: &str) -> &'a [u8] {
    match read_reply(message) {
        Reply::Credentials { creds, .. } if name == "creds" => creds.bytes,
        Reply::Success { method, values, .. } => match (method.reply, &values[..]) {
            ([field], [Value::Part(part)]) if field.name == name => part.bytes,
            _ => &[],
        },
        _ => &[],
    }
}

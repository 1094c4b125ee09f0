//! What the writers share: the checks and the storing.
//!
//! A writer puts its message together on the side. Only `store`, the last
//! step, touches the lent buffer, so a refused writer changes nothing.

use crate::methods::{Field, Kind};
use crate::refusal::{refuse, Refusal, BUFFER_TOO_SMALL, LONGEST, MALFORMED_TEXT, OVERSIZE};
use crate::text::well_formed;
use crate::value::Value;

/// Appends the lowest bytes of a number, big-endian. Signed numbers come
/// as their two's complement.
pub fn push(message: &mut Vec<u8>, width: usize, number: u64) {
    message.extend_from_slice(&number.to_be_bytes()[8 - width..]);
}

pub fn header(id: u32, kind: u8) -> Vec<u8> {
    let mut message = Vec::new();
    push(&mut message, 4, u64::from(id));
    push(&mut message, 1, u64::from(kind));
    message
}

pub fn push_signed(message: &mut Vec<u8>, width: usize, number: i32) {
    push(message, width, i64::from(number) as u64);
}

/// Appends a length and its bytes. A length of more than four bytes is not
/// stored whole, but such a message is oversize and refused.
pub fn push_run(message: &mut Vec<u8>, bytes: &[u8]) {
    push(message, 4, bytes.len() as u64);
    message.extend_from_slice(bytes);
}

/// Appends the fields. The caller gives one value of the right kind for each.
pub fn push_fields(message: &mut Vec<u8>, fields: &[Field], values: &[Value]) {
    assert_eq!(fields.len(), values.len(), "a value for each field");
    for (field, value) in fields.iter().zip(values) {
        match (field.kind.width(), value) {
            (Some(width), Value::Unsigned(number)) => push(message, width, *number),
            (Some(width), Value::Signed(number)) => push_signed(message, width, *number),
            (Some(width), Value::Bool(truth)) => push(message, width, u64::from(*truth)),
            (None, Value::Part(part)) => push_run(message, part.bytes),
            _ => panic!("the value does not fit the field {}", field.name),
        }
    }
}

pub fn check_text(bytes: &[u8]) -> Result<(), Refusal> {
    if well_formed(bytes) {
        Ok(())
    } else {
        refuse(MALFORMED_TEXT, 0)
    }
}

pub fn check_texts(fields: &[Field], values: &[Value]) -> Result<(), Refusal> {
    for (field, value) in fields.iter().zip(values) {
        if let (Kind::Text, Value::Part(part)) = (field.kind, value) {
            check_text(part.bytes)?;
        }
    }
    Ok(())
}

/// Stores a finished message in the first bytes of the buffer and tells its
/// length.
pub fn store(buffer: &mut [u8], message: &[u8]) -> Result<usize, Refusal> {
    if message.len() > LONGEST {
        return refuse(OVERSIZE, 0);
    }
    if message.len() > buffer.len() {
        return refuse(BUFFER_TOO_SMALL, 0);
    }
    buffer[..message.len()].copy_from_slice(message);
    Ok(message.len())
}

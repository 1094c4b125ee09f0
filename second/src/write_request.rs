//! The request writers.

use crate::methods::{method_of_request, Method};
use crate::refusal::{refuse, Refusal, UNEXPECTED_TYPE};
use crate::store::{check_texts, header, push_fields, store};
use crate::value::Value;

pub fn write_request(
    buffer: &mut [u8],
    id: u32,
    method: &Method,
    values: &[Value],
) -> Result<usize, Refusal> {
    check_texts(method.request, values)?;
    let mut message = header(id, method.number);
    push_fields(&mut message, method.request, values);
    store(buffer, &message)
}

/// Writes a request whose type is none of the methods'.
pub fn write_unknown_request(buffer: &mut [u8], id: u32, kind: u8) -> Result<usize, Refusal> {
    if method_of_request(kind).is_some() {
        return refuse(UNEXPECTED_TYPE, 0);
    }
    store(buffer, &header(id, kind))
}

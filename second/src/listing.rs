//! The listing of a request.

use crate::refusal::Refusal;
use crate::request::{read_request, Request};
use crate::store::store;
use crate::value::Value;

/// The lines for one request, each with its newline.
pub fn list_request(message: &[u8]) -> String {
    let whole = message.len();
    match read_request(message) {
        Request::Known { id, method, values, known } => {
            let mut text = format!("{} id {id}\n", method.name);
            for (field, value) in method.request.iter().zip(&values) {
                text += &format!("{} {}\n", field.name, listed(value));
            }
            text + &format!("known {known} of {whole}\n")
        }
        Request::Unknown { id, kind, known } => {
            format!("unknown {kind} id {id}\nknown {known} of {whole}\n")
        }
        Request::Refused(refusal) => {
            format!("refused {} at {}\n", refusal.number, refusal.place)
        }
    }
}

/// Stores the listing in the first bytes of the buffer and tells its length.
pub fn write_listing(buffer: &mut [u8], message: &[u8]) -> Result<usize, Refusal> {
    store(buffer, list_request(message).as_bytes())
}

/// Numbers in decimal, texts and data as their length.
fn listed(value: &Value) -> String {
    match value {
        Value::Unsigned(number) => number.to_string(),
        Value::Signed(number) => number.to_string(),
        Value::Bool(truth) => u8::from(*truth).to_string(),
        Value::Part(part) => part.bytes.len().to_string(),
    }
}

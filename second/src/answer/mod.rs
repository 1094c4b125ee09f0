//! Answers framed cases, one line each. FORMAT.md has the format.

mod again;
mod body;
mod read;
mod shown;
pub mod table;
mod write;

use std::io::{self, Read, Write};

use crate::front::{front, Front};
use crate::hash::hash;
use crate::listing::write_listing;
use body::Body;

/// The longest body of a case.
pub const LONGEST_BODY: usize = 200_000;

/// The longest message, text, data or buffer of a case.
pub const MOST_BYTES: usize = 70_000;

/// The longest message of an `s` or `o` case, and the largest buffer of an `s`
/// case.
pub const LONGEST_SHOWN: usize = 1_024;

/// The answer line of one case, without its line end. A case that does not
/// keep the format gives an error.
pub fn answer(op: u8, body: &[u8]) -> Result<String, String> {
    let mut body = Body::new(body);
    let line = match op {
        b'q' => read::request_line(&body.message()?),
        b'p' => read::reply_line(&body.message()?),
        b'l' => listing_line(&mut body)?,
        b'f' => front_line(&mut body)?,
        b'w' => write::request(&mut body)?,
        b'u' => write::unknown_request(&mut body)?,
        b'r' => write::success(&mut body)?,
        b'd' => write::readdir(&mut body)?,
        b'x' => write::failure(&mut body)?,
        b'c' => write::getcreds(&mut body)?,
        b'e' => write::unknown_response(&mut body)?,
        b'g' => again::line(&mut body)?,
        b's' => shown::line(&mut body)?,
        b't' => table::calls_line(&mut body)?,
        b'o' => table::call_line(&mut body)?,
        _ => return Err(format!("no such op: {op}")),
    };
    body.end()?;
    Ok(line)
}

fn front_line(body: &mut Body) -> Result<String, String> {
    let mut buffer = body.buffer()?;
    let request = body.message()?;
    Ok(match front(&request, &mut buffer) {
        Front::HandedOn => format!("handed-on {}", hash(&buffer)),
        Front::Stored(length) => write::stored_line(&buffer, length),
        Front::Refused(refusal) => write::refused_line(&buffer, refusal),
    })
}

fn listing_line(body: &mut Body) -> Result<String, String> {
    let mut buffer = body.buffer()?;
    let request = body.message()?;
    Ok(match write_listing(&mut buffer, &request) {
        Ok(length) => {
            let (listed, rest) = buffer.split_at(length);
            let text = String::from_utf8_lossy(listed).replace('\n', "|");
            format!("stored {length} {} {text}", hash(rest))
        }
        Err(refusal) => write::refused_line(&buffer, refusal),
    })
}

/// Answers all cases of the input.
pub fn answer_all(mut input: impl Read, mut output: impl Write) -> io::Result<()> {
    while let Some((op, body)) = next_case(&mut input)? {
        let line = answer(op, &body).map_err(bad_case)?;
        writeln!(output, "{line}")?;
    }
    output.flush()
}

/// The op and body of the next case, or none at the end of the input.
fn next_case(input: &mut impl Read) -> io::Result<Option<(u8, Vec<u8>)>> {
    let mut op = [0];
    if input.read(&mut op)? == 0 {
        return Ok(None);
    }
    let mut length = [0; 4];
    input.read_exact(&mut length)?;
    let length = u32::from_be_bytes(length) as usize;
    if length > LONGEST_BODY {
        return Err(bad_case(format!("a body of {length} bytes")));
    }
    let mut body = vec![0; length];
    input.read_exact(&mut body)?;
    Ok(Some((op[0], body)))
}

fn bad_case(text: String) -> io::Error {
    io::Error::new(io::ErrorKind::InvalidData, text)
}

//! The iterator over the names of a readdir reply, and a copy of them all.

use crate::cursor::Cursor;
use crate::methods::READDIR;
use crate::reply::{read_reply, Reply};
use crate::value::{Part, Value};

/// Names begin behind the header, the result and the count.
const FIRST_NAME: usize = 13;

pub struct Names<'a> {
    cursor: Cursor<'a>,
    left: u64,
}

impl<'a> Names<'a> {
    /// Any message may be given; all but accepted readdir replies have no
    /// names.
    pub fn open(message: &'a [u8]) -> Names<'a> {
        let mut cursor = Cursor::new(message);
        let mut left = 0;
        if let Reply::Success { method, values, .. } = read_reply(message) {
            if let (READDIR, [Value::Unsigned(count)]) = (method.number, &values[..]) {
                cursor.at = FIRST_NAME;
                left = *count;
            }
        }
        Names { cursor, left }
    }
}

impl<'a> Iterator for Names<'a> {
    type Item = Part<'a>;

    /// Past the last name there is none, however often one asks.
    fn next(&mut self) -> Option<Part<'a>> {
        if self.left == 0 {
            return None;
        }
        self.left -= 1;
        self.cursor.text().ok()
    }
}

/// How many names were copied, and how many bytes they are together.
#[derive(Debug, PartialEq, Eq)]
pub struct Collected {
    pub count: usize,
    pub length: usize,
}

/// Copies the names one behind the other to the start of `run`, and their
/// lengths to the start of `lengths`. Without room for all nothing changes.
pub fn collect_names(message: &[u8], run: &mut [u8], lengths: &mut [u32]) -> Option<Collected> {
    let names: Vec<&[u8]> = Names::open(message).map(|name| name.bytes).collect();
    let joined = names.concat();
    if joined.len() > run.len() || names.len() > lengths.len() {
        return None;
    }
    run[..joined.len()].copy_from_slice(&joined);
    for (length, name) in lengths.iter_mut().zip(&names) {
        *length = name.len() as u32;
    }
    Some(Collected { count: names.len(), length: joined.len() })
}

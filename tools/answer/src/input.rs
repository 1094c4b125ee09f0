//! The cases of the input, one behind the other: an op, the length of the body, the body.

use crate::body::Malformed;
use std::io::{self, Read};

/// Bytes in front of a body: the op and the length.
const HEAD: usize = 5;

/// Bytes of the longest body.
const LONGEST_BODY: usize = 200_000;

/// Bytes that are asked for at a time; a pipe holds as many.
const CHUNK: usize = 1 << 16;

/// One case, whole.
pub struct Case<'a> {
    pub op: u8,
    pub body: &'a [u8],
}

/// What was read and not yet taken: the bytes from `start` on.
pub struct Input<R> {
    source: R,
    bytes: Vec<u8>,
    start: usize,
}

impl<R: Read> Input<R> {
    pub fn new(source: R) -> Self {
        Input { source, bytes: Vec::new(), start: 0 }
    }

    /// Takes the next case, if it is here whole. Nothing is read.
    pub fn next_case(&mut self) -> Result<Option<Case<'_>>, Malformed> {
        let Some((&[op, a, b, c, d], rest)) = self.bytes[self.start..].split_first_chunk::<HEAD>() else {
            return Ok(None);
        };
        let len = u32::from_be_bytes([a, b, c, d]) as usize;
        if len > LONGEST_BODY {
            return Err(Malformed("a body that is too long"));
        }
        let Some(body) = rest.get(..len) else {
            return Ok(None);
        };
        self.start += HEAD + len;
        Ok(Some(Case { op, body }))
    }

    /// Waits for more bytes; false at the end of the input.
    pub fn fill(&mut self) -> io::Result<bool> {
        self.bytes.drain(..self.start);
        self.start = 0;
        let held = self.bytes.len();
        self.bytes.resize(held + CHUNK, 0);
        let got = self.source.read(&mut self.bytes[held..])?;
        self.bytes.truncate(held + got);
        Ok(got > 0)
    }

    /// At the end of the input no part of a case is left.
    pub fn check_end(&self) -> Result<(), Malformed> {
        if self.start < self.bytes.len() {
            return Err(Malformed("the input ends inside the case"));
        }
        Ok(())
    }
}

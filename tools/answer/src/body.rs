//! The body of a case, taken from left to right.

use std::fmt;

/// The greatest length of a message, a run or a lent buffer.
pub const LONGEST: usize = 70_000;

/// The greatest count of lengths.
const MOST_LENGTHS: usize = 16_384;

/// A case that does not keep the format, and in what.
#[derive(Debug)]
pub struct Malformed(pub &'static str);

impl fmt::Display for Malformed {
    fn fmt(&self, f: &mut fmt::Formatter<'_>) -> fmt::Result {
        f.write_str(self.0)
    }
}

/// The bytes of a body that are not yet taken.
pub struct Body<'a> {
    left: &'a [u8],
}

impl<'a> Body<'a> {
    pub fn new(bytes: &'a [u8]) -> Self {
        Body { left: bytes }
    }

    pub fn is_empty(&self) -> bool {
        self.left.is_empty()
    }

    /// Nothing is left.
    pub fn end(&self) -> Result<(), Malformed> {
        if self.is_empty() {
            return Ok(());
        }
        Err(Malformed("bytes behind the body"))
    }

    fn bytes(&mut self, len: usize) -> Result<&'a [u8], Malformed> {
        let (taken, left) = self.left.split_at_checked(len).ok_or(Malformed("a body that is too short"))?;
        self.left = left;
        Ok(taken)
    }

    fn array<const N: usize>(&mut self) -> Result<[u8; N], Malformed> {
        let (taken, left) = self.left.split_first_chunk().ok_or(Malformed("a body that is too short"))?;
        self.left = left;
        Ok(*taken)
    }

    pub fn u8(&mut self) -> Result<u8, Malformed> {
        self.array().map(u8::from_be_bytes)
    }

    pub fn i8(&mut self) -> Result<i8, Malformed> {
        self.array().map(i8::from_be_bytes)
    }

    pub fn u16(&mut self) -> Result<u16, Malformed> {
        self.array().map(u16::from_be_bytes)
    }

    pub fn u32(&mut self) -> Result<u32, Malformed> {
        self.array().map(u32::from_be_bytes)
    }

    pub fn i32(&mut self) -> Result<i32, Malformed> {
        self.array().map(i32::from_be_bytes)
    }

    pub fn u64(&mut self) -> Result<u64, Malformed> {
        self.array().map(u64::from_be_bytes)
    }

    pub fn bool(&mut self) -> Result<bool, Malformed> {
        match self.u8()? {
            0 => Ok(false),
            1 => Ok(true),
            _ => Err(Malformed("a bool that is neither 0 nor 1")),
        }
    }

    /// The length of a message, a run or a lent buffer.
    pub fn size(&mut self) -> Result<usize, Malformed> {
        let len = self.u32()? as usize;
        if len > LONGEST {
            return Err(Malformed("a length above the greatest"));
        }
        Ok(len)
    }

    /// MSG: a message. Its prefix is the rest of the body.
    pub fn message(&mut self) -> Result<Vec<u8>, Malformed> {
        let len = self.size()?;
        let fill = self.u8()?;
        let prefix = self.bytes(self.left.len())?;
        Ok(filled(prefix, len, fill))
    }

    /// RUN: a text, data or names.
    pub fn run(&mut self) -> Result<Vec<u8>, Malformed> {
        let len = self.size()?;
        let fill = self.u8()?;
        let prefix_len = self.u32()? as usize;
        let prefix = self.bytes(prefix_len)?;
        Ok(filled(prefix, len, fill))
    }

    /// The lengths of names, behind their count.
    pub fn lengths(&mut self) -> Result<Vec<u32>, Malformed> {
        let count = self.u32()? as usize;
        if count > MOST_LENGTHS {
            return Err(Malformed("a count above the greatest"));
        }
        (0..count).map(|_| self.u32()).collect()
    }
}

/// The prefix, cut to `len` bytes or filled up to them.
fn filled(prefix: &[u8], len: usize, fill: u8) -> Vec<u8> {
    let mut bytes = prefix[..prefix.len().min(len)].to_vec();
    bytes.resize(len, fill);
    bytes
}

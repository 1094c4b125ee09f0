//! Taking numbers, runs and fields from a message, from left to right.

use crate::methods::{Field, Kind};
use crate::refusal::{
    refuse, Refusal, HEADER_SIZE, LONGEST, MALFORMED_TEXT, OVERSIZE, TRUNCATED, TRUNCATED_HEADER,
};
use crate::text::well_formed_end;
use crate::value::{Part, Value};

/// Refuses a message that is too short or too long to be looked at.
pub fn check_whole(message: &[u8]) -> Result<(), Refusal> {
    if message.len() < HEADER_SIZE {
        return refuse(TRUNCATED_HEADER, 0);
    }
    if message.len() > LONGEST {
        return refuse(OVERSIZE, 0);
    }
    Ok(())
}

#[derive(Clone, Debug)]
pub struct Cursor<'a> {
    message: &'a [u8],
    pub at: usize,
}

impl<'a> Cursor<'a> {
    pub fn new(message: &'a [u8]) -> Cursor<'a> {
        Cursor { message, at: 0 }
    }

    /// The next bytes, if the message has so many left.
    pub fn run(&mut self, length: u64) -> Result<Part<'a>, Refusal> {
        let start = self.at;
        let left = self.message.len() - start;
        if length > left as u64 {
            return refuse(TRUNCATED, start);
        }
        self.at = start + length as usize;
        Ok(Part { start, bytes: &self.message[start..self.at] })
    }

    pub fn number(&mut self, width: u64) -> Result<u64, Refusal> {
        let part = self.run(width)?;
        Ok(part.bytes.iter().fold(0, |number, byte| number << 8 | u64::from(*byte)))
    }

    pub fn signed(&mut self) -> Result<i32, Refusal> {
        Ok(self.number(4)? as u32 as i32)
    }

    pub fn data(&mut self) -> Result<Part<'a>, Refusal> {
        let length = self.number(4)?;
        self.run(length)
    }

    /// A malformed text is refused where its longest well-formed beginning
    /// ends. Only the string's own bytes count.
    pub fn text(&mut self) -> Result<Part<'a>, Refusal> {
        let part = self.data()?;
        let end = well_formed_end(part.bytes);
        if end < part.bytes.len() {
            return refuse(MALFORMED_TEXT, part.start + end);
        }
        Ok(part)
    }

    /// Goes over the names and tells their count. The count is not believed:
    /// the first name that is missing ends the loop.
    fn names(&mut self) -> Result<u64, Refusal> {
        let count = self.number(4)?;
        for _ in 0..count {
            self.text()?;
        }
        Ok(count)
    }

    fn field(&mut self, kind: Kind) -> Result<Value<'a>, Refusal> {
        Ok(match kind {
            Kind::U8 => Value::Unsigned(self.number(1)?),
            Kind::U32 => Value::Unsigned(self.number(4)?),
            Kind::U64 => Value::Unsigned(self.number(8)?),
            Kind::I8 => Value::Signed(self.number(1)? as u8 as i8 as i32),
            Kind::I32 => Value::Signed(self.signed()?),
            Kind::Bool => Value::Bool(self.number(1)? != 0),
            Kind::Text => Value::Part(self.text()?),
            Kind::Data => Value::Part(self.data()?),
            Kind::Names => Value::Unsigned(self.names()?),
        })
    }

    pub fn fields(&mut self, fields: &[Field]) -> Result<Vec<Value<'a>>, Refusal> {
        fields.iter().map(|field| self.field(field.kind)).collect()
    }
}

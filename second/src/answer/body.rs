//! Taking a case's body apart.

use crate::answer::{LONGEST_SHOWN, MOST_BYTES};
use crate::filled::filled;
use crate::methods::{Field, Kind};
use crate::value::Value;

/// The most lengths of a readdir case.
const MOST_LENGTHS: usize = 16_384;

pub type Taken<T> = Result<T, String>;

/// The value of one field as a case gives it; a text or data is put
/// together here.
pub enum Given {
    Number(Value<'static>),
    Run(Vec<u8>),
}

impl Given {
    pub fn value(&self) -> Value<'_> {
        match self {
            Given::Number(value) => *value,
            Given::Run(bytes) => Value::run(bytes),
        }
    }
}

pub struct Body<'a> {
    left: &'a [u8],
}

impl<'a> Body<'a> {
    pub fn new(bytes: &'a [u8]) -> Body<'a> {
        Body { left: bytes }
    }

    pub fn is_empty(&self) -> bool {
        self.left.is_empty()
    }

    pub fn take(&mut self, length: usize) -> Taken<&'a [u8]> {
        if length > self.left.len() {
            return Err("the body ends early".to_string());
        }
        let (taken, left) = self.left.split_at(length);
        self.left = left;
        Ok(taken)
    }

    pub fn u8(&mut self) -> Taken<u8> {
        Ok(self.take(1)?[0])
    }

    pub fn u16(&mut self) -> Taken<u16> {
        Ok(u16::from(self.u8()?) << 8 | u16::from(self.u8()?))
    }

    pub fn u32(&mut self) -> Taken<u32> {
        let mut bytes = [0; 4];
        bytes.copy_from_slice(self.take(4)?);
        Ok(u32::from_be_bytes(bytes))
    }

    pub fn i32(&mut self) -> Taken<i32> {
        Ok(self.u32()? as i32)
    }

    fn u64(&mut self) -> Taken<u64> {
        Ok(u64::from(self.u32()?) << 32 | u64::from(self.u32()?))
    }

    fn size(&mut self, most: usize) -> Taken<usize> {
        let size = self.u32()? as usize;
        if size > most {
            return Err(format!("a size of {size}"));
        }
        Ok(size)
    }

    /// The lent buffer with its pattern.
    pub fn buffer(&mut self) -> Taken<Vec<u8>> {
        self.buffer_up_to(MOST_BYTES)
    }

    /// The lent buffer of an `s` case.
    pub fn shown_buffer(&mut self) -> Taken<Vec<u8>> {
        self.buffer_up_to(LONGEST_SHOWN)
    }

    fn buffer_up_to(&mut self, most: usize) -> Taken<Vec<u8>> {
        let size = self.size(most)?;
        Ok((0..size).map(|index| ((index * 7 + 3) % 251) as u8).collect())
    }

    /// A message: its length, the fill, and the rest of the body as prefix.
    pub fn message(&mut self) -> Taken<Vec<u8>> {
        let whole = self.size(MOST_BYTES)?;
        let fill = self.u8()?;
        let prefix = self.take(self.left.len())?;
        Ok(filled(prefix, whole, fill))
    }

    /// The message of an `s` or `o` case: the rest of the body as it is.
    pub fn shown_message(&mut self) -> Taken<&'a [u8]> {
        let length = self.left.len();
        if length > LONGEST_SHOWN {
            return Err(format!("a message of {length} bytes"));
        }
        self.take(length)
    }

    /// A text or data of a writer.
    pub fn run(&mut self) -> Taken<Vec<u8>> {
        let whole = self.size(MOST_BYTES)?;
        let fill = self.u8()?;
        let length = self.u32()? as usize;
        let prefix = self.take(length)?;
        Ok(filled(prefix, whole, fill))
    }

    pub fn lengths(&mut self) -> Taken<Vec<u32>> {
        let count = self.size(MOST_LENGTHS)?;
        (0..count).map(|_| self.u32()).collect()
    }

    fn given(&mut self, kind: Kind) -> Taken<Given> {
        Ok(match kind {
            Kind::U8 => Given::Number(Value::Unsigned(u64::from(self.u8()?))),
            Kind::U32 => Given::Number(Value::Unsigned(u64::from(self.u32()?))),
            Kind::U64 => Given::Number(Value::Unsigned(self.u64()?)),
            Kind::I8 => Given::Number(Value::Signed(i32::from(self.u8()? as i8))),
            Kind::I32 => Given::Number(Value::Signed(self.i32()?)),
            Kind::Bool => Given::Number(Value::Bool(self.u8()? != 0)),
            Kind::Text | Kind::Data => Given::Run(self.run()?),
            Kind::Names => return Err("names have an op of their own".to_string()),
        })
    }

    pub fn fields(&mut self, fields: &[Field]) -> Taken<Vec<Given>> {
        fields.iter().map(|field| self.given(field.kind)).collect()
    }

    /// Nothing may be left over.
    pub fn end(&self) -> Taken<()> {
        if self.is_empty() {
            Ok(())
        } else {
            Err(format!("{} bytes too many in the body", self.left.len()))
        }
    }
}

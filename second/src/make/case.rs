//! Framed cases, as FORMAT.md lays them out.

use crate::filled::filled;
use crate::store::{push, push_signed};

/// Bytes given as a prefix and a fill up to the whole length.
#[derive(Clone, Debug)]
pub struct Filled {
    pub prefix: Vec<u8>,
    pub whole: usize,
    pub fill: u8,
}

impl Filled {
    pub fn exact(bytes: &[u8]) -> Filled {
        Filled { prefix: bytes.to_vec(), whole: bytes.len(), fill: 0 }
    }

    pub fn padded(prefix: &[u8], whole: usize, fill: u8) -> Filled {
        Filled { prefix: prefix.to_vec(), whole, fill }
    }

    /// The bytes themselves.
    pub fn bytes(&self) -> Vec<u8> {
        filled(&self.prefix, self.whole, self.fill)
    }
}

#[derive(Clone, Debug)]
pub struct Case {
    pub op: u8,
    pub body: Vec<u8>,
}

impl Case {
    pub(super) fn new(op: u8) -> Case {
        Case { op, body: Vec::new() }
    }

    pub(super) fn number(mut self, width: usize, number: u64) -> Case {
        push(&mut self.body, width, number);
        self
    }

    fn signed(mut self, number: i32) -> Case {
        push_signed(&mut self.body, 4, number);
        self
    }

    /// The room of the lent buffer and the id, with which all writers begin.
    fn writer(op: u8, room: usize, id: u32) -> Case {
        Case::new(op).number(4, room as u64).number(4, u64::from(id))
    }

    pub(super) fn bytes(mut self, bytes: &[u8]) -> Case {
        self.body.extend_from_slice(bytes);
        self
    }

    fn message(self, message: &Filled) -> Case {
        self.number(4, message.whole as u64)
            .number(1, u64::from(message.fill))
            .bytes(&message.prefix)
    }

    pub(super) fn run(mut self, run: &Filled) -> Case {
        push_filled(&mut self.body, run);
        self
    }

    pub fn framed(&self) -> Vec<u8> {
        let mut bytes = vec![self.op];
        push(&mut bytes, 4, self.body.len() as u64);
        bytes.extend_from_slice(&self.body);
        bytes
    }
}

/// A text or data as a writer's case gives it.
pub fn push_filled(body: &mut Vec<u8>, run: &Filled) {
    push(body, 4, run.whole as u64);
    push(body, 1, u64::from(run.fill));
    push(body, 4, run.prefix.len() as u64);
    body.extend_from_slice(&run.prefix);
}

#[derive(Clone, Copy, Debug, PartialEq, Eq)]
pub enum Side {
    Request,
    Reply,
}

/// The reader of that side.
pub fn read(side: Side, message: &Filled) -> Case {
    let op = if side == Side::Request { b'q' } else { b'p' };
    Case::new(op).message(message)
}

pub fn listing(room: usize, message: &Filled) -> Case {
    Case::new(b'l').number(4, room as u64).message(message)
}

pub fn front(room: usize, message: &Filled) -> Case {
    Case::new(b'f').number(4, room as u64).message(message)
}

pub fn again(side: Side, room: usize, message: &Filled) -> Case {
    Case::new(b'g').number(1, side as u64).number(4, room as u64).message(message)
}

/// The message stands in the body as it is.
pub fn shown(side: Side, room: usize, message: &[u8]) -> Case {
    Case::new(b's').number(1, side as u64).number(4, room as u64).bytes(message)
}

pub fn write_request(room: usize, id: u32, kind: u8, fields: &[u8]) -> Case {
    Case::writer(b'w', room, id).number(1, u64::from(kind)).bytes(fields)
}

pub fn write_unknown(room: usize, id: u32, kind: u8) -> Case {
    Case::writer(b'u', room, id).number(1, u64::from(kind))
}

pub fn write_success(room: usize, id: u32, kind: u8, result: i32, fields: &[u8]) -> Case {
    Case::writer(b'r', room, id).number(1, u64::from(kind)).signed(result).bytes(fields)
}

pub fn write_readdir(room: usize, id: u32, result: i32, run: &Filled, lengths: &[u32]) -> Case {
    let case = Case::writer(b'd', room, id).signed(result).run(run);
    let counted = case.number(4, lengths.len() as u64);
    lengths.iter().fold(counted, |case, length| case.number(4, u64::from(*length)))
}

pub fn write_failure(room: usize, id: u32, kind: u8, code: i32) -> Case {
    Case::writer(b'x', room, id).number(1, u64::from(kind)).signed(code)
}

pub fn write_getcreds(room: usize, id: u32, creds: &Filled) -> Case {
    Case::writer(b'c', room, id).run(creds)
}

pub fn write_unknown_response(room: usize, id: u32) -> Case {
    Case::writer(b'e', room, id)
}

//! Field values, and the messages and writer cases made of them.

use crate::make::case::{self, push_filled, Case, Filled, Side};
use crate::methods::{Field, Kind, Method, GETCREDS, READ};
use crate::store::{header, push, push_run, push_signed};

/// A value for one field. A number's lowest bytes are used, as many as the
/// field has.
#[derive(Clone, Debug)]
pub enum Put {
    Number(u64),
    Run(Filled),
    Names(Vec<Vec<u8>>),
}

/// A message and the places of its lengths and counts.
#[derive(Clone, Debug)]
pub struct Draft {
    pub bytes: Vec<u8>,
    pub lengths: Vec<usize>,
}

impl Draft {
    fn new(bytes: Vec<u8>) -> Draft {
        Draft { bytes, lengths: Vec::new() }
    }

    fn add_run(&mut self, bytes: &[u8]) {
        self.lengths.push(self.bytes.len());
        push_run(&mut self.bytes, bytes);
    }

    fn add(&mut self, kind: Kind, put: &Put) {
        match put {
            Put::Number(number) => push(&mut self.bytes, kind.width().unwrap(), *number),
            Put::Run(run) => self.add_run(&run.bytes()),
            Put::Names(names) => {
                self.lengths.push(self.bytes.len());
                push(&mut self.bytes, 4, names.len() as u64);
                names.iter().for_each(|name| self.add_run(name));
            }
        }
    }

    fn add_fields(mut self, fields: &[Field], puts: &[Put]) -> Draft {
        for (field, put) in fields.iter().zip(puts) {
            self.add(field.kind, put);
        }
        self
    }

    pub fn whole(&self) -> Filled {
        Filled::exact(&self.bytes)
    }
}

pub fn request_draft(method: &Method, id: u32, puts: &[Put]) -> Draft {
    Draft::new(header(id, method.number)).add_fields(method.request, puts)
}

/// The reply to getcreds leaves the result out.
pub fn reply_draft(method: &Method, id: u32, result: i32, puts: &[Put]) -> Draft {
    let mut bytes = header(id, method.reply_number());
    if method.number != GETCREDS {
        push_signed(&mut bytes, 4, result);
    }
    Draft::new(bytes).add_fields(method.reply, puts)
}

/// A draft of either side with an acceptable result.
pub fn side_draft(side: Side, method: &Method, id: u32, puts: &[Put]) -> Draft {
    match side {
        Side::Request => request_draft(method, id, puts),
        Side::Reply => reply_draft(method, id, good_result(method, puts), puts),
    }
}

/// A result with which the reply is a success.
pub fn good_result(method: &Method, puts: &[Put]) -> i32 {
    match puts {
        [Put::Run(data)] if method.number == READ => data.whole as i32,
        _ => 0,
    }
}

/// The fields as a writer's case gives them.
fn writer_fields(fields: &[Field], puts: &[Put]) -> Vec<u8> {
    let mut body = Vec::new();
    for (field, put) in fields.iter().zip(puts) {
        match (field.kind, put) {
            (Kind::Bool, Put::Number(number)) => push(&mut body, 1, u64::from(*number != 0)),
            (kind, Put::Number(number)) => push(&mut body, kind.width().unwrap(), *number),
            (_, Put::Run(run)) => push_filled(&mut body, run),
            (_, Put::Names(_)) => panic!("names have a writer of their own"),
        }
    }
    body
}

pub fn writer_request(method: &Method, room: usize, id: u32, puts: &[Put]) -> Case {
    case::write_request(room, id, method.number, &writer_fields(method.request, puts))
}

pub fn writer_success(method: &Method, room: usize, id: u32, result: i32, puts: &[Put]) -> Case {
    let fields = writer_fields(method.reply, puts);
    case::write_success(room, id, method.reply_number(), result, &fields)
}

/// The bytes that the fields take in a message.
pub fn size(fields: &[Field], puts: &[Put]) -> usize {
    let sizes = fields.iter().zip(puts).map(|(field, put)| match put {
        Put::Number(_) => field.kind.width().unwrap(),
        Put::Run(run) => 4 + run.whole,
        Put::Names(names) => 4 + names.iter().map(|name| 4 + name.len()).sum::<usize>(),
    });
    sizes.sum()
}

//! `g`: a message is read, and what was read is written again.

use crate::body::{Body, Malformed};
use crate::reading::show_refusal;
use crate::writing::{typed_reply, typed_request};
use tushalets::{NameRun, Names, Received, Reply};

const REQUEST_SIDE: u8 = 0;

const REPLY_SIDE: u8 = 1;

pub fn show(body: &mut Body<'_>) -> Result<String, Malformed> {
    let (side, room) = (body.u8()?, body.size()?);
    let message = body.message()?;
    match side {
        REQUEST_SIDE => Ok(show_request(room, &message)),
        REPLY_SIDE => Ok(show_reply(room, &message)),
        _ => Err(Malformed("a side that is neither 0 nor 1")),
    }
}

fn show_request(room: usize, message: &[u8]) -> String {
    match tushalets::read_request(message) {
        Ok(Received { id, body, .. }) => typed_request(room, id, &body).line(),
        Err(refusal) => show_refusal(refusal),
    }
}

fn show_reply(room: usize, message: &[u8]) -> String {
    match tushalets::read_reply(message) {
        Ok(Received { id, body, .. }) => show_reply_again(room, id, body),
        Err(refusal) => show_refusal(refusal),
    }
}

fn show_reply_again(room: usize, id: u32, reply: Reply<'_>) -> String {
    let mut collected = Collected::default();
    let given = reply.map_names(|names| collected.collect(names));
    typed_reply(room, id, &given).line()
}

/// Names in one run, and their lengths.
#[derive(Default)]
struct Collected {
    names: Vec<u8>,
    lengths: Vec<u32>,
}

impl Collected {
    fn collect(&mut self, names: Names<'_>) -> NameRun<'_> {
        for name in names {
            self.names.extend(name.as_bytes());
            self.lengths.push(name.len() as u32);
        }
        NameRun { names: &self.names, lengths: &self.lengths }
    }
}

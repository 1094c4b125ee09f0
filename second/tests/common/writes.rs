//! Write requests read by hand: path, data, offset and handle, from left to
//! right, and the answers that follow. The text check is that of the standard
//! library.

use std::collections::BTreeSet;
use std::ops::Range;
use std::str::from_utf8;

use second::answer::answer;
use second::hash::hash;
use second::make::case::Case;
use second::make::fixed_list;

use super::strings::{message_of, Side};
use super::{length_at, lent, with_parts, REQUEST_PARTS};

/// The ops that read a request of any length.
pub const OPS: [&str; 4] = ["q", "f", "l", "g"];

/// The thirds of a path, and the first bytes of the characters that break there.
pub const THIRDS: [&str; 3] = ["front", "middle", "end"];
pub const BROKEN: [u8; 8] = [0x80, 0xc0, 0xff, 0xc3, 0xe2, 0xed, 0xf4, 0xf0];

/// Number and place of a refusal.
pub type Refused = (u8, usize);

/// Where the path and the data of an accepted write request stand.
#[derive(Clone, Debug, PartialEq, Eq)]
pub struct Write {
    pub path: Range<usize>,
    pub data: Range<usize>,
}

impl Write {
    /// Offset and handle stand behind the data.
    pub fn known(&self) -> usize {
        self.data.end + 16
    }
}

pub fn read_write(message: &[u8]) -> Result<Write, Refused> {
    if message.len() < 5 {
        return Err((1, 0));
    }
    if message.len() > 65_536 {
        return Err((2, 0));
    }
    let path = run_at(message, 5)?;
    if let Err(error) = from_utf8(&message[path.clone()]) {
        return Err((5, path.start + error.valid_up_to()));
    }
    let data = run_at(message, path.end)?;
    for number in [data.end, data.end + 8] {
        if message.len() < number + 8 {
            return Err((4, number));
        }
    }
    Ok(Write { path, data })
}

/// The bytes that the length at this place counts.
pub fn run_at(message: &[u8], at: usize) -> Result<Range<usize>, Refused> {
    let start = at + 4;
    if message.len() < start {
        return Err((4, at));
    }
    let end = start + length_at(message, at);
    if message.len() < end {
        return Err((4, start));
    }
    Ok(start..end)
}

/// A case with a write request, how the request is read by hand, and the
/// answer.
pub struct Met {
    pub op: u8,
    /// The length of the lent buffer, where the case has one.
    pub room: usize,
    pub message: Vec<u8>,
    pub read: Result<Write, Refused>,
    pub line: String,
}

impl Met {
    /// Nothing for other messages than requests of type 11.
    pub fn new(case: &Case) -> Option<Met> {
        let (side, message) = message_of(case)?;
        if side == Side::Reply || message.get(4) != Some(&0x11) {
            return None;
        }
        let room = match case.op {
            b'q' => 0,
            b'l' | b'f' => length_at(&case.body, 0),
            _ => length_at(&case.body, 1),
        };
        let line = answer(case.op, &case.body).unwrap();
        Some(Met { op: case.op, room, read: read_write(&message), message, line })
    }

    /// The answer as it has to be.
    pub fn wanted(&self) -> String {
        match (self.op, &self.read) {
            (b'q', Ok(write)) => with_parts(&REQUEST_PARTS, &self.fields(write)),
            (b'q', Err(refused)) => with_parts(&REQUEST_PARTS, &refusal(refused)),
            (b'f', Ok(_)) => format!("handed-on {}", hash(&lent(self.room))),
            (b'g', Err(refused)) => refusal(refused),
            (b's', Ok(write)) => format!("{} {}", self.shown(write), self.stored()),
            (b's', Err(_)) => "request 0:0 0:0 0:0 0:0 0:0 0:0".to_string(),
            _ => self.stored(),
        }
    }

    /// What is stored where the buffer has room for it.
    pub fn bytes(&self) -> Vec<u8> {
        let id = &self.message[..4];
        match (self.op, &self.read) {
            (b'f', Err((2, _))) => [id, &[0x80]].concat(),
            (b'f', Err(_)) => [id, &[0x91, 0xff, 0xff, 0xff, 0xea]].concat(),
            (b'l', Ok(write)) => self.listing(write).into_bytes(),
            (b'l', Err(refused)) => (refusal(refused) + "\n").into_bytes(),
            (b'g' | b's', Ok(write)) => self.message[..write.known()].to_vec(),
            _ => Vec::new(),
        }
    }

    /// What a line tells of the buffer. A listing stands in it as text.
    fn stored(&self) -> String {
        let (buffer, bytes) = (lent(self.room), self.bytes());
        let Some(rest) = buffer.get(bytes.len()..) else {
            return format!("refused 7 at 0 {}", hash(&buffer));
        };
        if self.op == b'l' {
            let text = from_utf8(&bytes).unwrap().replace('\n', "|");
            return format!("stored {} {} {text}", bytes.len(), hash(rest));
        }
        format!("stored {} {} {}", bytes.len(), hash(&bytes), hash(rest))
    }

    fn fields(&self, write: &Write) -> String {
        let part = |range: &Range<usize>| format!("{}:{}", range.start, self.size(range));
        let (path, data) = (part(&write.path), part(&write.data));
        let (offset, handle) = self.numbers(write);
        let start = format!("known {} write {}", length_at(&self.message, 0), write.known());
        format!("{start} path={path} data={data} offset={offset} handle={handle}")
    }

    fn listing(&self, write: &Write) -> String {
        let (path, data) = (write.path.len(), write.data.len());
        let (offset, handle) = self.numbers(write);
        let start = format!("write id {}\n", length_at(&self.message, 0));
        let end = format!("known {} of {}\n", write.known(), self.message.len());
        format!("{start}path {path}\ndata {data}\noffset {offset}\nhandle {handle}\n{end}")
    }

    /// Between path and data stand four parts that a write does not have.
    fn shown(&self, write: &Write) -> String {
        let (path, data) = (self.size(&write.path), self.size(&write.data));
        format!("request {path} 0:0 0:0 0:0 0:0 {data}")
    }

    /// Length and checksum of a part.
    fn size(&self, range: &Range<usize>) -> String {
        format!("{}:{}", range.len(), hash(&self.message[range.clone()]))
    }

    /// Offset and handle.
    fn numbers(&self, write: &Write) -> (u64, u64) {
        let number = |at| u64::from_be_bytes(self.message[at..at + 8].try_into().unwrap());
        (number(write.data.end), number(write.data.end + 8))
    }
}

fn refusal((number, place): &Refused) -> String {
    format!("refused {number} at {place}")
}

/// The write requests of the fixed list.
pub fn fixed(op: &str) -> Vec<Met> {
    fixed_list(op).iter().filter_map(Met::new).collect()
}

/// Whether the fixed list has one of these requests with every cut of it, from
/// no byte on.
pub fn cut_everywhere<'a>(op: &str, requests: impl IntoIterator<Item = &'a Met>) -> bool {
    let messages: BTreeSet<Vec<u8>> =
        fixed_list(op).iter().filter_map(message_of).map(|(_, message)| message).collect();
    let cut = |met: &Met| (0..met.message.len()).all(|at| messages.contains(&met.message[..at]));
    requests.into_iter().any(cut)
}

/// Where in the path it breaks, if the request is refused for that.
pub fn third(met: &Met) -> Option<&'static str> {
    let Err((5, place)) = met.read else { return None };
    let path = run_at(&met.message, 5).unwrap();
    Some(match (place - path.start, path.end - place) {
        (0, _) => "front",
        (_, ..=4) => "end",
        _ => "middle",
    })
}

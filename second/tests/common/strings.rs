//! The strings of a message, found by their lengths alone, and the place of
//! refusal 5 by the text check of the standard library.

use std::ops::{Range, RangeInclusive};
use std::str::{from_utf8, Utf8Error};

use second::make::case::Case;
use second::methods::{method_of_reply, method_of_request, Field, Kind, GETCREDS};

use super::{length_at, message_at};

/// The lengths of the shortest and the longest message that a reader looks at.
const LENGTHS: RangeInclusive<usize> = 5..=65_536;

#[derive(Clone, Copy, Debug, PartialEq, Eq, PartialOrd, Ord)]
pub enum Side {
    Request,
    Reply,
}

/// The message of a case that hands one to a reader, and its side.
pub fn message_of(case: &Case) -> Option<(Side, Vec<u8>)> {
    let body = &case.body;
    let side = || if body[0] == 0 { Side::Request } else { Side::Reply };
    Some(match case.op {
        b'q' => (Side::Request, message_at(body, 0)),
        b'p' => (Side::Reply, message_at(body, 0)),
        b'l' | b'f' => (Side::Request, message_at(body, 4)),
        b'g' => (side(), message_at(body, 5)),
        b's' => (side(), body[5..].to_vec()),
        _ => return None,
    })
}

/// A malformed string: which of the message's strings it is, where it stands,
/// and what the standard library says of it.
#[derive(Debug)]
pub struct Malformed {
    pub nth: usize,
    pub string: Range<usize>,
    pub error: Utf8Error,
}

impl Malformed {
    /// The place of the refusal, counted from the start of the string.
    pub fn offset(&self) -> usize {
        self.error.valid_up_to()
    }

    /// The same from the start of the message.
    pub fn place(&self) -> usize {
        self.string.start + self.offset()
    }
}

/// The string for which a reader refuses the message with 5, if it does.
pub fn malformed(side: Side, message: &[u8]) -> Option<Malformed> {
    let mut strings = strings(side, message).into_iter().enumerate();
    strings.find_map(|(nth, string)| {
        let error = from_utf8(&message[string.clone()]).err()?;
        Some(Malformed { nth, string, error })
    })
}

/// The strings in their order, up to the first number or run that is
/// truncated.
pub fn strings(side: Side, message: &[u8]) -> Vec<Range<usize>> {
    let mut walk = Walk { message, at: 5, found: Vec::new() };
    if LENGTHS.contains(&message.len()) {
        walk.fields(side, message[4]);
    }
    walk.found
}

struct Walk<'a> {
    message: &'a [u8],
    at: usize,
    found: Vec<Range<usize>>,
}

impl Walk<'_> {
    /// Nothing where the message ends before the fields do.
    fn fields(&mut self, side: Side, kind: u8) -> Option<()> {
        let fields = match side {
            Side::Request => method_of_request(kind)?.request,
            Side::Reply => {
                let method = method_of_reply(kind)?;
                if method.number != GETCREDS {
                    self.result()?;
                }
                method.reply
            }
        };
        fields.iter().try_for_each(|field| self.field(field))
    }

    /// Behind a negative result there is no string.
    fn result(&mut self) -> Option<()> {
        let number = self.skip(4)?;
        (self.message[number.start] < 0x80).then_some(())
    }

    fn skip(&mut self, length: usize) -> Option<Range<usize>> {
        let range = self.at..self.at.checked_add(length)?;
        self.at = range.end;
        (range.end <= self.message.len()).then_some(range)
    }

    fn run(&mut self) -> Option<Range<usize>> {
        let number = self.skip(4)?;
        self.skip(length_at(self.message, number.start))
    }

    fn string(&mut self) -> Option<()> {
        let run = self.run()?;
        self.found.push(run);
        Some(())
    }

    fn field(&mut self, field: &Field) -> Option<()> {
        match field.kind {
            Kind::Text => self.string()?,
            Kind::Data => {
                self.run()?;
            }
            Kind::Names => {
                let count = self.skip(4)?;
                for _ in 0..length_at(self.message, count.start) {
                    self.string()?;
                }
            }
            kind => {
                self.skip(kind.width().unwrap())?;
            }
        }
        Some(())
    }
}

//! What a function answered that was lent a buffer, and what it left there.

use crate::checksum::checksum;
use crate::lent::lent;
use tushalets::{raw, Fronted, Refusal};

#[derive(PartialEq)]
pub struct Outcome {
    answer: Answer,
    buffer: Vec<u8>,
}

#[derive(PartialEq)]
enum Answer {
    HandedOn,
    Stored(usize),
    Refused { number: u32, place: usize },
}

impl From<Refusal> for Answer {
    fn from(refusal: Refusal) -> Self {
        Answer::Refused { number: u32::from(refusal.number), place: refusal.place }
    }
}

impl Outcome {
    fn of(room: usize, run: impl FnOnce(&mut [u8]) -> Answer) -> Self {
        let mut buffer = lent(room);
        let answer = run(&mut buffer);
        Outcome { answer, buffer }
    }

    /// Of a writer with types.
    pub fn typed(room: usize, write: impl FnOnce(&mut [u8]) -> Result<usize, Refusal>) -> Self {
        Outcome::of(room, |out| write(out).map_or_else(Answer::from, Answer::Stored))
    }

    /// Of an exported writer.
    pub fn raw(room: usize, write: impl FnOnce(&mut [u8]) -> raw::Written) -> Self {
        Outcome::of(room, |out| match write(out) {
            raw::Written { number: 0, len, .. } => Answer::Stored(len),
            raw::Written { number, place, .. } => Answer::Refused { number, place },
        })
    }

    /// Of the front.
    pub fn fronted(room: usize, front: impl FnOnce(&mut [u8]) -> Result<Fronted, Refusal>) -> Self {
        Outcome::of(room, |out| match front(out) {
            Ok(Fronted::HandedOn) => Answer::HandedOn,
            Ok(Fronted::Stored(len)) => Answer::Stored(len),
            Err(refusal) => Answer::from(refusal),
        })
    }

    /// The line of a writer or the front.
    pub fn line(&self) -> String {
        self.line_with(|bytes, rest| format!("stored {} {} {}", bytes.len(), checksum(bytes), checksum(rest)))
    }

    /// The line of a listing.
    pub fn listing_line(&self) -> String {
        self.line_with(|bytes, rest| {
            let text = String::from_utf8_lossy(bytes).replace('\n', "|");
            format!("stored {} {} {text}", bytes.len(), checksum(rest))
        })
    }

    /// `stored` shows the bytes that were stored and those behind them.
    fn line_with(&self, stored: impl FnOnce(&[u8], &[u8]) -> String) -> String {
        match self.answer {
            Answer::HandedOn => format!("handed-on {}", checksum(&self.buffer)),
            Answer::Stored(len) => {
                let (bytes, rest) = self.buffer.split_at(len);
                stored(bytes, rest)
            }
            Answer::Refused { number, place } => format!("refused {number} at {place} {}", checksum(&self.buffer)),
        }
    }
}

/// The line of a message that was written by the exported function, and with types where it could be; `differ` where the
/// two did not do the same.
pub fn agreed_line(raw: &Outcome, typed: Option<&Outcome>) -> String {
    if typed.is_some_and(|typed| typed != raw) {
        return String::from("differ");
    }
    raw.line()
}

#[cfg(test)]
mod tests {
    use super::*;

    /// A buffer of 6 bytes, of which the first become these.
    fn stored(bytes: &[u8]) -> Outcome {
        Outcome::typed(6, |out| {
            out[..bytes.len()].copy_from_slice(bytes);
            Ok(bytes.len())
        })
    }

    #[test]
    fn the_same_is_shown_once() {
        assert_eq!(agreed_line(&stored(b"a"), None), stored(b"a").line());
        assert_eq!(agreed_line(&stored(b"a"), Some(&stored(b"a"))), stored(b"a").line());
    }

    #[test]
    fn a_difference_is_shown() {
        let refused = Outcome::typed(6, |_| Err(Refusal { number: 7, place: 0 }));
        for other in [stored(b"b"), stored(b"ab"), stored(b""), refused] {
            assert_eq!(agreed_line(&stored(b"a"), Some(&other)), "differ");
        }
    }
}

//! What the worked rows are made of: messages from hex, lent buffers, and the words for an answer.
#![allow(dead_code, unused_imports)] // Each test uses some of these.

mod fields;

pub use fields::{show_reply, show_request};

use tushalets::{raw, read_reply, Names, Received, Reply, Success};

/// A longer message is not shown in hex.
const LONGEST_SHOWN: usize = 128;

/// Where the first name of a readdir reply stands.
const FIRST_NAME: usize = 13;

/// Compares what was shown with the lines that were written by hand. The first line that differs is told.
pub fn assert_lines(expected: &str, shown: &[String]) {
    let shown: Vec<&str> = shown.iter().flat_map(|text| text.lines()).collect();
    for (number, (wanted, got)) in (1..).zip(expected.lines().zip(&shown)) {
        assert!(wanted == *got, "line {number}:\n  expected {wanted}\n  shown    {got}");
    }
    assert_eq!(shown.len(), expected.lines().count(), "lines in all");
}

/// Bytes from hex digits; blanks between them are left out.
pub fn bytes(hex: &str) -> Vec<u8> {
    let digits: Vec<u32> = hex.split(' ').flat_map(str::chars).map(|c| c.to_digit(16).expect("a hex digit")).collect();
    digits.chunks(2).map(|pair| (pair[0] * 16 + pair[1]) as u8).collect()
}

pub fn hex(bytes: &[u8]) -> String {
    bytes.iter().map(|byte| format!("{byte:02x}")).collect()
}

/// A message in hex as document 01 has it: id, type and the rest.
fn hex_of_message(message: &[u8]) -> String {
    match message.split_at_checked(5) {
        Some((head, [])) => format!("{} {}", hex(&head[..4]), hex(&head[4..])),
        Some((head, rest)) => format!("{} {} {}", hex(&head[..4]), hex(&head[4..]), hex(rest)),
        None => hex(message),
    }
}

/// A buffer to be lent. It is filled with bytes that count down from ff, so that one that was changed shows.
pub fn lent(room: usize) -> Vec<u8> {
    (0..room).map(|i| 255 - (i % 256) as u8).collect()
}

pub fn show_refusal(number: impl Into<u32>, place: usize) -> String {
    format!("refused {} at {place}", number.into())
}

pub fn show_stored(bytes: &[u8]) -> String {
    if bytes.len() > LONGEST_SHOWN {
        return format!("stored {}", bytes.len());
    }
    format!("stored {} '{}'", bytes.len(), hex_of_message(bytes))
}

/// Where a part of the message begins in it.
pub fn start_of(message: &[u8], part: &[u8]) -> usize {
    (part.as_ptr() as usize).wrapping_sub(message.as_ptr() as usize)
}

fn names_of(message: &[u8]) -> Option<Names<'_>> {
    match read_reply(message) {
        Ok(Received { body: Reply::Success { success: Success::Readdir(names), .. }, .. }) => Some(names),
        _ => None,
    }
}

/// So many steps over the names of a message, by positions and by the iterator, which must come to the same names. Where
/// there are none, the steps go from where the first would be.
pub fn show_names(message: &[u8], steps: usize) -> String {
    let mut names = names_of(message);
    let [_, first, count, ..] = raw::read_reply(message).fields;
    let (mut at, mut left) = if names.is_some() { (first as usize, count as u32) } else { (FIRST_NAME, 0) };
    let mut shown = String::new();
    for _ in 0..steps {
        let step = raw::next_name(message, at, left);
        (at, left) = (step.at, step.left);
        shown += &match names.as_mut().and_then(Iterator::next) {
            Some(name) if is_at(message, name, step) => {
                format!(" name {}+{} '{name}' left {left}", step.start, step.len)
            }
            None if step.found == 0 => format!(" end at {at} left {left}"),
            other => format!(" iterator {other:?} position {step:?}"),
        };
    }
    shown
}

/// So many steps from a position, which may be made up.
pub fn show_names_from(message: &[u8], mut at: usize, mut left: u32, steps: usize) -> String {
    let mut shown = String::new();
    for _ in 0..steps {
        let step = raw::next_name(message, at, left);
        (at, left) = (step.at, step.left);
        shown += &match step.found {
            0 => format!(" end at {at} left {left}"),
            _ => {
                let name = String::from_utf8_lossy(&message[step.start..][..step.len]);
                format!(" name {}+{} '{name}' left {left}", step.start, step.len)
            }
        };
    }
    shown
}

/// The iterator's name is the part that the step shows.
fn is_at(message: &[u8], name: &str, step: raw::Name) -> bool {
    step.found == 1 && step.start == start_of(message, name.as_bytes()) && step.len == name.len()
}

//! Texts of 4,000 bytes with one bad byte.

use crate::make::case::{again, front, listing, read, Case, Filled, Side};
use crate::make::list_text::{method, run, unlink};
use crate::make::put::request_draft;
use crate::make::strings::{arrivals, reply_with, CHARACTERS};

const LENGTH: usize = 4_000;

/// A byte that no text has.
const BAD: u8 = 0xff;

pub fn add(out: &mut Vec<Case>) {
    for (nth, character) in CHARACTERS.iter().enumerate() {
        let texts = spoiled(character);
        for (place, text) in texts.iter().enumerate() {
            add_text(out, nth + place, text);
        }
        out.push(arrivals(&texts.map(|text| shortened(reply_with(nth, &text)))));
    }
}

/// A long text of one character with a bad byte at its front, in its middle
/// and at its end.
fn spoiled(character: &str) -> [Vec<u8>; 3] {
    let good = character.repeat(LENGTH / character.len()).into_bytes();
    [0, good.len() / 2, good.len() - 1].map(|at| {
        let mut text = good.clone();
        text[at] = BAD;
        text
    })
}

/// The text as a path, in a reply, and through one more way in its turn.
fn add_text(out: &mut Vec<Case>, turn: usize, text: &[u8]) {
    let path = shortened(unlink(text));
    let second = request_draft(method("symlink"), 0x66, &[run(b"/target"), run(text)]).whole();
    out.push(read(Side::Request, &path));
    out.push(read(Side::Reply, &shortened(reply_with(turn, text))));
    out.push(match turn % 4 {
        0 => listing(60, &path),
        1 => read(Side::Request, &shortened(second)),
        2 => again(Side::Request, LENGTH, &path),
        _ => front(13, &shortened(second)),
    });
}

/// The same message with the equal bytes at its end as fill.
pub fn shortened(message: Filled) -> Filled {
    let bytes = message.bytes();
    let fill = bytes[bytes.len() - 1];
    let length = bytes.iter().rposition(|byte| *byte != fill).map_or(0, |last| last + 1);
    Filled::padded(&bytes[..length], bytes.len(), fill)
}

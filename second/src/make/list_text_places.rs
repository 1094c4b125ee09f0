//! Texts that are malformed at each of their places, and behind characters of
//! each length, in every string of both readers.

use crate::make::case::{again, front, listing, read, Case, Filled, Side};
use crate::make::strings::{arrivals, reply_with, request_with, BROKEN, CHARACTERS, REPLY_STRINGS};

/// A broken character goes before each byte of this path, and behind it.
const PATH: &[u8] = b"/job/f-0017a";

/// Each byte of this text is changed into each of these.
const MIXED: &str = "\u{e9}\u{20ac}\u{1f600}/b";
const CHANGED: [u8; 2] = [b'A', 0xff];

pub fn add(out: &mut Vec<Case>) {
    let mut texts: Vec<Vec<u8>> = BROKEN.iter().flat_map(|broken| inserted(broken)).collect();
    texts.extend(CHANGED.iter().flat_map(|byte| changed(*byte)));
    texts.extend(behind_characters());
    for (turn, text) in texts.iter().enumerate() {
        add_text(out, turn, text);
    }
    for (turn, broken) in BROKEN.iter().enumerate() {
        out.push(arriving(turn, &inserted(broken)));
    }
    for turn in 0..REPLY_STRINGS {
        out.push(arriving(turn, &behind_characters()));
    }
}

/// The path with the broken character at each place.
pub fn inserted(broken: &[u8]) -> Vec<Vec<u8>> {
    let text = |at| [&PATH[..at], broken, &PATH[at..]].concat();
    (0..=PATH.len()).map(text).collect()
}

/// The mixed text with each byte changed, also inside a character.
fn changed(byte: u8) -> Vec<Vec<u8>> {
    let text = |at| {
        let mut text = MIXED.as_bytes().to_vec();
        text[at] = byte;
        text
    };
    (0..MIXED.len()).map(text).collect()
}

/// Broken characters behind one and two characters of all lengths, and behind
/// all four.
fn behind_characters() -> Vec<Vec<u8>> {
    let mut fronts: Vec<String> = CHARACTERS.map(String::from).to_vec();
    for (index, first) in CHARACTERS.iter().enumerate() {
        for second in [index, index + 1, index + 2] {
            fronts.push(first.to_string() + CHARACTERS[second % CHARACTERS.len()]);
        }
    }
    fronts.push(CHARACTERS.concat());
    fronts.push(CHARACTERS.iter().rev().copied().collect());
    let broken = BROKEN.iter().cycle();
    fronts.iter().zip(broken).map(|(front, broken)| [front.as_bytes(), broken].concat()).collect()
}

/// Every text in a request, every second one in a reply, and the others
/// through one more way in their turn.
fn add_text(out: &mut Vec<Case>, turn: usize, text: &[u8]) {
    let request = request_with(turn, text);
    let reply = reply_with(turn / 2, text);
    out.push(read(Side::Request, &request));
    match turn % 8 {
        1 => out.push(listing(60, &request)),
        3 => out.push(again(Side::Request, 100, &request)),
        5 => out.push(front(13, &request)),
        7 => out.push(again(Side::Reply, 100, &reply)),
        _ => out.push(read(Side::Reply, &reply)),
    }
}

/// The texts in replies that arrive at the table.
fn arriving(turn: usize, texts: &[Vec<u8>]) -> Case {
    let replies: Vec<Filled> = texts.iter().map(|text| reply_with(turn, text)).collect();
    arrivals(&replies)
}

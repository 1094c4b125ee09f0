//! Random numbers, texts and fields, with a liking for the ends.

use crate::make::case::Filled;
use crate::make::list_text::ENTRIES;
use crate::make::prng::Prng;
use crate::make::put::Put;
use crate::methods::{Field, Kind};
use crate::refusal::LONGEST;

/// Most texts that are spoiled have so many characters, from least to most.
const MANY_CHARACTERS: (usize, usize) = (5, 30);

pub fn number(prng: &mut Prng) -> u64 {
    let bit = 1u64 << prng.below(64);
    match prng.below(8) {
        0 => 0,
        1 => 1,
        2 => u64::MAX,
        3 => bit,
        4 => bit - 1,
        5 => u64::from(prng.byte()),
        _ => prng.next(),
    }
}

/// A result of either sign.
pub fn result(prng: &mut Prng) -> i32 {
    match prng.below(8) {
        0 => -22,
        1 => prng.below(4) as i32 - 2,
        2 => i32::MAX,
        3 => i32::MIN,
        4 => prng.next() as i32,
        _ => 0,
    }
}

pub fn id(prng: &mut Prng) -> u32 {
    number(prng) as u32
}

/// One well-formed character of a random entry.
fn character(prng: &mut Prng) -> Vec<u8> {
    let entry = prng.pick(&ENTRIES);
    let bytes = entry.iter().map(|(least, greatest)| match prng.below(6) {
        0 => *least,
        1 => *greatest,
        _ => prng.between(usize::from(*least), usize::from(*greatest)) as u8,
    });
    bytes.collect()
}

/// A well-formed text of so many characters.
fn characters(prng: &mut Prng, count: usize) -> Vec<u8> {
    let mut text = Vec::new();
    for _ in 0..count {
        if prng.chance(50) {
            text.push(prng.between(0x20, 0x7e) as u8);
        } else {
            text.extend(character(prng));
        }
    }
    text
}

/// A well-formed text of a few characters.
fn good_text(prng: &mut Prng) -> Vec<u8> {
    let count = prng.pick(&[0, 1, 1, 2, 3, 4, 6, 9]);
    characters(prng, count)
}

/// A text that is spoiled, often behind several whole characters.
fn bad_text(prng: &mut Prng) -> Vec<u8> {
    let mut text = good_text(prng);
    if prng.chance(70) {
        let count = prng.between(MANY_CHARACTERS.0, MANY_CHARACTERS.1);
        text = characters(prng, count);
    }
    spoil(prng, &mut text);
    text
}

/// Spoils a text, most often so that it is no longer well-formed.
fn spoil(prng: &mut Prng, text: &mut Vec<u8>) {
    if text.is_empty() {
        text.push(prng.byte() | 0x80);
        return;
    }
    let at = prng.below(text.len());
    match prng.below(4) {
        0 => text[at] = prng.byte(),
        1 => text[at] = text[at].wrapping_add(prng.pick(&[1, 0xff, 0x20, 0xe0])),
        2 => text.truncate(at),
        _ => text.insert(at, prng.byte() | 0x80),
    }
}

/// A text that is bad in so many of a hundred.
pub fn text(prng: &mut Prng, bad: usize) -> Vec<u8> {
    if prng.chance(bad) {
        bad_text(prng)
    } else {
        good_text(prng)
    }
}

/// Names of which one is bad in so many of a hundred lists. All fit in a
/// message.
pub fn names(prng: &mut Prng, bad: usize) -> Vec<Vec<u8>> {
    let mut names: Vec<Vec<u8>> = match prng.below(100) {
        0 => return many_names(prng),
        1..=5 => (0..prng.between(190, 210)).map(|_| good_text(prng)).collect(),
        6..=55 => (0..prng.between(5, 60)).map(|_| good_text(prng)).collect(),
        _ => (0..prng.below(5)).map(|_| good_text(prng)).collect(),
    };
    if !names.is_empty() && prng.chance(bad) {
        let at = prng.below(names.len());
        names[at] = bad_text(prng);
    }
    names
}

/// Thousands of names, most of them empty or one byte long, as many as a
/// message can have or fewer.
fn many_names(prng: &mut Prng) -> Vec<Vec<u8>> {
    let count = prng.pick(&[1_000, 1_500, 2_500, 4_000, 7_000, 16_380]);
    let mut left = LONGEST - 13 - 4 * count;
    let share = prng.pick(&[0, 1, 10, 60]);
    let name = |_| {
        let length = if prng.chance(share) { prng.between(1, 3).min(left) } else { 0 };
        left -= length;
        vec![prng.between(0x20, 0x7e) as u8; length]
    };
    (0..count).map(name).collect()
}

fn data(prng: &mut Prng) -> Vec<u8> {
    let length = prng.pick(&[0, 1, 2, 5, 12, 30]);
    (0..length).map(|_| prng.byte()).collect()
}

pub fn puts(prng: &mut Prng, fields: &[Field], bad: usize) -> Vec<Put> {
    let put = |field: &Field| match field.kind {
        Kind::Text => Put::Run(Filled::exact(&text(prng, bad))),
        Kind::Data => Put::Run(Filled::exact(&data(prng))),
        Kind::Names => Put::Names(names(prng, bad)),
        Kind::Bool => Put::Number(if prng.chance(80) { prng.next() & 1 } else { number(prng) }),
        _ => Put::Number(number(prng)),
    };
    fields.iter().map(put).collect()
}

//! Texts that look random, well-formed and not.

use crate::random::Random;

/// The first and last byte of each range in the list of well-formed text, and their neighbours.
pub const EDGES: [u8; 24] = [
    0x00, 0x7f, 0x80, 0x8f, 0x90, 0x9f, 0xa0, 0xbf, 0xc0, 0xc1, 0xc2, 0xdf, 0xe0, 0xe1, 0xec, 0xed, 0xee, 0xef, 0xf0,
    0xf1, 0xf3, 0xf4, 0xf5, 0xff,
];

/// As many characters or single bytes, at most.
const LONGEST_TEXT: u64 = 24;

/// Whole characters, and now and then a byte that may break them.
pub fn random_text(random: &mut Random) -> Vec<u8> {
    let mut text = Vec::new();
    for _ in 0..random.below(LONGEST_TEXT + 1) {
        append(random, &mut text);
    }
    text
}

/// A whole character, an edge or any byte: the characters let well-formed beginnings grow long.
fn append(random: &mut Random, text: &mut Vec<u8>) {
    match random.below(8) {
        0 => text.push(EDGES[random.below(EDGES.len() as u64) as usize]),
        1 => text.push(random.below(0x100) as u8),
        _ => {
            let limit = [0x80, 0x800, 0x1_0000, 0x11_0000][random.below(4) as usize];
            let character = char::from_u32(random.below(limit) as u32).unwrap_or(char::REPLACEMENT_CHARACTER);
            text.extend_from_slice(character.encode_utf8(&mut [0; 4]).as_bytes());
        }
    }
}

//! Well-formed text.

/// Whether the bytes are a sequence of whole characters.
pub fn well_formed(bytes: &[u8]) -> bool {
    well_formed_end(bytes) == bytes.len()
}

/// Where the longest well-formed beginning ends: where the first character
/// begins that is not whole, or behind the last byte.
pub fn well_formed_end(bytes: &[u8]) -> usize {
    let mut end = 0;
    while let Some(length) = character(&bytes[end..]) {
        end += length;
    }
    end
}

/// The length of the character that the bytes begin with, if it is whole.
fn character(bytes: &[u8]) -> Option<usize> {
    let (length, second) = match bytes.first()? {
        0x00..=0x7f => return Some(1),
        0xc2..=0xdf => (2, 0x80..=0xbf),
        0xe0 => (3, 0xa0..=0xbf),
        0xe1..=0xec | 0xee..=0xef => (3, 0x80..=0xbf),
        0xed => (3, 0x80..=0x9f),
        0xf0 => (4, 0x90..=0xbf),
        0xf1..=0xf3 => (4, 0x80..=0xbf),
        0xf4 => (4, 0x80..=0x8f),
        _ => return None,
    };
    if bytes.len() < length || !second.contains(&bytes[1]) {
        return None;
    }
    let others = &bytes[2..length];
    others.iter().all(|byte| (0x80..=0xbf).contains(byte)).then_some(length)
}

//! The buffer that is lent to a writer. It is filled beforehand, so that a byte that was changed shows.

use crate::body::LONGEST;

const STEP: usize = 7;

const FIRST: usize = 3;

const PERIOD: usize = 251;

/// The bytes of the longest buffer.
static PATTERN: [u8; LONGEST] = pattern();

const fn pattern() -> [u8; LONGEST] {
    let mut bytes = [0; LONGEST];
    let mut i = 0;
    while i < LONGEST {
        bytes[i] = ((i * STEP + FIRST) % PERIOD) as u8;
        i += 1;
    }
    bytes
}

/// A buffer of this many bytes, at most `LONGEST`.
pub fn lent(room: usize) -> Vec<u8> {
    PATTERN[..room].to_vec()
}

//! A record of the table as bytes, the form of cases and of checksums.

use crate::outstanding::Record;

/// The first byte of a record.
pub const FREE: u8 = 0;
pub const HELD: u8 = 1;

/// So many bytes a record has where all have the same number.
pub const WIDTH: usize = 6;

/// A free record is all zero; another one is its mark, its id, its type.
pub fn record_bytes(record: &Record) -> [u8; WIDTH] {
    let mut bytes = [FREE; WIDTH];
    if let Record::Held { id, kind } = record {
        bytes[0] = HELD;
        bytes[1..5].copy_from_slice(&id.to_be_bytes());
        bytes[5] = *kind;
    }
    bytes
}

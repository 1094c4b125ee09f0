//! The numbers of refusal. The word behind each is that of document 01; from
//! 10 on they are those of the table in document 02.

pub const TRUNCATED_HEADER: u8 = 1; // runt
pub const OVERSIZE: u8 = 2; // over-long
pub const UNEXPECTED_TYPE: u8 = 3; // stray
pub const TRUNCATED: u8 = 4; // short
pub const MALFORMED_TEXT: u8 = 5; // text
pub const DATA_LENGTH_MISMATCH: u8 = 6; // tally
pub const BUFFER_TOO_SMALL: u8 = 7; // room
pub const RESULT_SIGN: u8 = 8; // sign
pub const LENGTHS_MISMATCH: u8 = 9; // list
pub const ID_OUTSTANDING: u8 = 10;
pub const TABLE_FULL: u8 = 11;
pub const ID_NOT_OUTSTANDING: u8 = 12;
pub const TYPE_MISMATCH: u8 = 13;
pub const UNSOUND_TABLE: u8 = 20;

/// A message has at most this many bytes, read or written.
pub const LONGEST: usize = 65_536;

/// The bytes of the header: id and type.
pub const HEADER_SIZE: usize = 5;

/// Where the type of a message stands.
pub const TYPE_PLACE: usize = 4;

/// Where the result of a reply stands.
pub const RESULT_PLACE: usize = HEADER_SIZE;

#[derive(Clone, Copy, Debug, PartialEq, Eq)]
pub struct Refusal {
    pub number: u8,
    pub place: usize,
}

pub fn refuse<T>(number: u8, place: usize) -> Result<T, Refusal> {
    Err(Refusal { number, place })
}

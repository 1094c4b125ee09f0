//! The exported functions as they are, made safe for slices: numbers in, numbers out.
//!
//! The typed functions of the crate are made of these, and most programs need only those. These are for a program that
//! keeps numbers, or that writes text it has as bytes. Every function takes every input. What each promises is stated
//! and proved in the Rattle sources, `crates/tushalets_c`. Which cells of a [`Reading`] show which field of a message is
//! in the table of cells in `hosts/c/tushalets.h`; how a word holds a record of a table of outstanding requests is
//! there too. As everywhere in the crate, [`check_version`](crate::check_version) comes before any other call.
//!
//! ```
//! use tushalets::{numbers::{shapes, types}, raw};
//!
//! let message = [0, 0, 0, 7, 0x01, 0, 0, 0, 2, b'/', b'a', 4];
//! let reading = raw::read_request(&message);
//! assert_eq!((reading.shape, reading.type_number), (shapes::KNOWN, types::ACCESS as u32));
//! assert_eq!(reading.fields[..3], [9, 2, 4]); // The path is at 9 and has 2 bytes, the mode is 4.
//! ```
//!
//! All unsafe code of the crate is in this file: the calls, and the step from checked bytes to `str`.

use crate::numbers::{shapes, types};
use crate::Refusal;
use core::mem::{offset_of, size_of};

/// The answer of a reader.
#[repr(C)]
#[derive(Clone, Copy, Debug, PartialEq, Eq)]
pub struct Reading {
    /// One of [`shapes`]. A refusal has `number` and `place`, and 0 elsewhere; the others have 0 in these two.
    pub shape: u32,
    /// The number of refusal.
    pub number: u32,
    /// The message's id.
    pub id: u32,
    /// The message's type.
    pub type_number: u32,
    /// Where in the message it is refused.
    pub place: usize,
    /// The length of the known part.
    pub known: usize,
    /// The fields in the order of document 01's table, a reply's result first, and 0 behind them: the table of cells in
    /// `hosts/c/tushalets.h`. A number or a bool has one cell; a signed number shows its 32 bits. A text or data has
    /// two: its start in the message and its length. Names have two: the place of the first and their count, from which
    /// [`next_name`] goes. They belong to the message that was read, unchanged.
    pub fields: [u64; 17],
}

/// A step over the names of a readdir reply.
#[repr(C)]
#[derive(Clone, Copy, Debug, PartialEq, Eq)]
pub struct Name {
    /// 1 where there is a name, 0 where there is none.
    pub found: u32,
    /// How many names are left after it.
    pub left: u32,
    /// Where the name's bytes begin in the message.
    pub start: usize,
    /// How many they are.
    pub len: usize,
    /// Where the next step begins. Without a name the position stays.
    pub at: usize,
}

/// The answer of a writer.
#[repr(C)]
#[derive(Clone, Copy, Debug, PartialEq, Eq)]
pub struct Written {
    /// 0, or the number of refusal.
    pub number: u32,
    /// How many bytes were stored at the start of the buffer; 0 of a refusal, which stores none.
    pub len: usize,
    /// The place of a refusal: 0 of every writer.
    pub place: usize,
}

/// What the front did.
#[repr(C)]
#[derive(Clone, Copy, Debug, PartialEq, Eq)]
pub struct Fronted {
    /// One of [`acts`](crate::numbers::acts).
    pub act: u32,
    /// The number of refusal, where it refused.
    pub number: u32,
    /// How many bytes were stored at the start of the buffer.
    pub len: usize,
    /// The place of a refusal: 0.
    pub place: usize,
}

/// What a look at a table of outstanding requests found.
#[repr(C)]
#[derive(Clone, Copy, Debug, PartialEq, Eq)]
pub struct Looked {
    /// 0; or the number of a refusal, and all else is 0.
    pub number: u32,
    /// 1 where the id is outstanding, 0 where it is not.
    pub held: u32,
    /// The type of the request with this id; 0 where it is not outstanding.
    pub type_number: u32,
    /// How many requests are outstanding.
    pub count: usize,
}

// The sizes and the place of the array that the compiled code has.
const _: () = assert!(size_of::<Reading>() == 168 && offset_of!(Reading, fields) == 32);
const _: () = assert!(size_of::<Name>() == 32 && offset_of!(Name, at) == 24);
const _: () = assert!(size_of::<Written>() == 24 && offset_of!(Written, place) == 16);
const _: () = assert!(size_of::<Fronted>() == 24 && offset_of!(Fronted, place) == 16);
const _: () = assert!(size_of::<Looked>() == 24 && offset_of!(Looked, count) == 16);

extern "C" {
    fn tushalets_version() -> u32;
    fn tushalets_well_formed_end(text: *const u8, text_len: usize) -> usize;
    fn tushalets_read_request(message: *const u8, message_len: usize) -> Reading;
    fn tushalets_read_reply(message: *const u8, message_len: usize) -> Reading;
    fn tushalets_next_name(message: *const u8, message_len: usize, at: usize, left: u32) -> Name;
    fn tushalets_front(message: *const u8, message_len: usize, out: *mut u8, out_len: usize) -> Fronted;
    fn tushalets_list_request(message: *const u8, message_len: usize, out: *mut u8, out_len: usize) -> Written;
    fn tushalets_write_request(
        id: u32,
        type_number: u8,
        numbers: *const [u64; 5],
        first: *const u8,
        first_len: usize,
        second: *const u8,
        second_len: usize,
        out: *mut u8,
        out_len: usize,
    ) -> Written;
    fn tushalets_write_unknown_request(id: u32, type_number: u8, out: *mut u8, out_len: usize) -> Written;
    fn tushalets_write_reply(
        id: u32,
        type_number: u8,
        result: i32,
        numbers: *const [u64; 14],
        run: *const u8,
        run_len: usize,
        lengths: *const u32,
        lengths_len: usize,
        out: *mut u8,
        out_len: usize,
    ) -> Written;
    fn tushalets_write_failure(id: u32, type_number: u8, code: i32, out: *mut u8, out_len: usize) -> Written;
    fn tushalets_write_unknown_response(id: u32, out: *mut u8, out_len: usize) -> Written;
    fn tushalets_empty(records: *mut u64, records_len: usize) -> u32;
    fn tushalets_enter(records: *mut u64, records_len: usize, id: u32, type_number: u8) -> u32;
    fn tushalets_arrive(records: *mut u64, records_len: usize, message: *const u8, message_len: usize) -> Reading;
    fn tushalets_look(records: *const u64, records_len: usize, id: u32) -> Looked;
}

// What a caller owes the exported functions, and how slices meet it: a slice is not null, also of length 0, is aligned,
// and is valid for its length; nothing writes to a `&` slice meanwhile; what is written, `out` or `records`, is `&mut`
// and so overlaps nothing. No function has a `requires`, so every value is allowed. None keeps a pointer. The laws that
// are cited are in crates/exports/proofs/SoundHolds.antt, where no other file is named.
//
// All this holds where the linked library is that of these declarations. A library of another version than `VERSION`
// must not be called, but for `tushalets_version`: its functions may take and return something else, and no call sees
// that. `check_version` is for this; it comes before any other call. That the declarations are those of the sources is
// what tests/declared.rs is for.

/// The version of the linked code; [`VERSION`](crate::VERSION) is the one that this crate is written for.
#[inline]
pub fn version() -> u32 {
    // SAFETY: no argument, no `requires`.
    unsafe { tushalets_version() }
}

/// Where the longest well-formed beginning of `text` ends.
#[inline]
pub fn well_formed_end(text: &[u8]) -> usize {
    // SAFETY: `text` is valid for its length; no `requires`.
    unsafe { tushalets_well_formed_end(text.as_ptr(), text.len()) }
}

/// Reads a request.
#[inline]
pub fn read_request(message: &[u8]) -> Reading {
    // SAFETY: `message` is valid for its length; no `requires`.
    unsafe { tushalets_read_request(message.as_ptr(), message.len()) }
}

/// Reads a reply.
#[inline]
pub fn read_reply(message: &[u8]) -> Reading {
    // SAFETY: `message` is valid for its length; no `requires`.
    unsafe { tushalets_read_reply(message.as_ptr(), message.len()) }
}

/// The name at a position of a readdir reply. The first position is the two cells behind the result, the others are in
/// the answers. A position that was made up is harmless: its name lies inside the message, but it may be no text.
#[inline]
pub fn next_name(message: &[u8], at: usize, left: u32) -> Name {
    // SAFETY: `message` is valid for its length; no `requires`, so every position is allowed.
    unsafe { tushalets_next_name(message.as_ptr(), message.len(), at, left) }
}

/// Answers a request that needs no file system, or hands it on.
#[inline]
pub fn front(message: &[u8], out: &mut [u8]) -> Fronted {
    // SAFETY: both are valid for their lengths; `out` is `&mut` and so overlaps nothing; no `requires`.
    unsafe { tushalets_front(message.as_ptr(), message.len(), out.as_mut_ptr(), out.len()) }
}

/// Stores the listing of a request, also of one that is refused.
#[inline]
pub fn list_request(message: &[u8], out: &mut [u8]) -> Written {
    // SAFETY: both are valid for their lengths; `out` is `&mut` and so overlaps nothing; no `requires`.
    unsafe { tushalets_list_request(message.as_ptr(), message.len(), out.as_mut_ptr(), out.len()) }
}

/// Writes a known request. `numbers` are its number fields in the order of document 01's table, each in the low bits of
/// its word; `first` and `second` are its texts or data: of a write request, the path and the data. What a type does not
/// have is not looked at.
#[inline]
pub fn write_request(
    id: u32,
    type_number: u8,
    numbers: &[u64; 5],
    first: &[u8],
    second: &[u8],
    out: &mut [u8],
) -> Written {
    let (first, first_len) = (first.as_ptr(), first.len());
    let (second, second_len) = (second.as_ptr(), second.len());
    let (out, out_len) = (out.as_mut_ptr(), out.len());
    // SAFETY: all are valid for their lengths; `out` is `&mut` and so overlaps nothing; no `requires`.
    unsafe { tushalets_write_request(id, type_number, numbers, first, first_len, second, second_len, out, out_len) }
}

/// Writes a request of a type that no method has.
#[inline]
pub fn write_unknown_request(id: u32, type_number: u8, out: &mut [u8]) -> Written {
    // SAFETY: `out` is valid for its length and `&mut`; no `requires`.
    unsafe { tushalets_write_unknown_request(id, type_number, out.as_mut_ptr(), out.len()) }
}

/// Writes a success. `type_number` is the reply's, as [`types::READ_REPLY`]. `numbers` are the number fields behind the
/// result, as for a request; `run` is its text or data. The names of a readdir reply are `run`, one behind the other,
/// and `lengths`. A getcreds reply leaves `result` aside.
#[inline]
pub fn write_reply(
    id: u32,
    type_number: u8,
    result: i32,
    numbers: &[u64; 14],
    run: &[u8],
    lengths: &[u32],
    out: &mut [u8],
) -> Written {
    let (run, run_len) = (run.as_ptr(), run.len());
    let (lengths, lengths_len) = (lengths.as_ptr(), lengths.len());
    let (out, out_len) = (out.as_mut_ptr(), out.len());
    // SAFETY: all are valid for their lengths; `out` is `&mut` and so overlaps nothing; no `requires`.
    unsafe { tushalets_write_reply(id, type_number, result, numbers, run, run_len, lengths, lengths_len, out, out_len) }
}

/// Writes a failure. `type_number` is the reply's, of any method but getcreds; `code` is negative.
#[inline]
pub fn write_failure(id: u32, type_number: u8, code: i32, out: &mut [u8]) -> Written {
    // SAFETY: `out` is valid for its length and `&mut`; no `requires`.
    unsafe { tushalets_write_failure(id, type_number, code, out.as_mut_ptr(), out.len()) }
}

/// Writes the unknown response.
#[inline]
pub fn write_unknown_response(id: u32, out: &mut [u8]) -> Written {
    // SAFETY: `out` is valid for its length and `&mut`; no `requires`.
    unsafe { tushalets_write_unknown_response(id, out.as_mut_ptr(), out.len()) }
}

/// Frees every record of a table of outstanding requests, whatever its words were. Answers 0, or
/// [`UNSOUND_TABLE`](crate::numbers::refusals::UNSOUND_TABLE) where there are not [`RECORDS`](crate::RECORDS) records;
/// then no word has changed.
#[inline]
pub fn empty(records: &mut [u64]) -> u32 {
    // SAFETY: `records` is valid for its length and `&mut`; no `requires`.
    unsafe { tushalets_empty(records.as_mut_ptr(), records.len()) }
}

/// Enters a request into the first free record. Answers 0, or the number of a refusal, which changes no word. A table
/// that is not sound is refused before all else, as [`UNSOUND_TABLE`](crate::numbers::refusals::UNSOUND_TABLE). Then
/// follow, in this order, [`UNEXPECTED_TYPE`](crate::numbers::refusals::UNEXPECTED_TYPE) for a type of 0x80 or above,
/// [`ID_OUTSTANDING`](crate::numbers::refusals::ID_OUTSTANDING) and
/// [`TABLE_FULL`](crate::numbers::refusals::TABLE_FULL).
#[inline]
pub fn enter(records: &mut [u64], id: u32, type_number: u8) -> u32 {
    // SAFETY: `records` is valid for its length and `&mut`; no `requires`, so every word is allowed.
    unsafe { tushalets_enter(records.as_mut_ptr(), records.len(), id, type_number) }
}

/// Reads a reply and frees the record of its request. The answer is [`read_reply`]'s, or a refusal, which changes no
/// word. A table that is not sound is refused before all else, as
/// [`UNSOUND_TABLE`](crate::numbers::refusals::UNSOUND_TABLE). Then follow, in this order, the reader's refusals with
/// their places, [`ID_NOT_OUTSTANDING`](crate::numbers::refusals::ID_NOT_OUTSTANDING) and
/// [`TYPE_MISMATCH`](crate::numbers::refusals::TYPE_MISMATCH).
#[inline]
pub fn arrive(records: &mut [u64], message: &[u8]) -> Reading {
    // SAFETY: both are valid for their lengths; `records` is `&mut` and so overlaps nothing; no `requires`, so every
    // word is allowed.
    unsafe { tushalets_arrive(records.as_mut_ptr(), records.len(), message.as_ptr(), message.len()) }
}

/// How many requests are outstanding, and whether and with which type this id is. Refused as
/// [`UNSOUND_TABLE`](crate::numbers::refusals::UNSOUND_TABLE) where the table is not sound.
#[inline]
pub fn look(records: &[u64], id: u32) -> Looked {
    // SAFETY: `records` is valid for its length; no `requires`, so every word is allowed.
    unsafe { tushalets_look(records.as_ptr(), records.len(), id) }
}

/// A message that a reader accepted, and its reading. Both are private and only `request`, `reply` and `arrived` make
/// one, so they belong together, and no cell that is asked for can give a text that is none.
#[derive(Clone, Copy)]
pub(crate) struct Accepted<'a> {
    message: &'a [u8],
    reading: Reading,
}

impl<'a> Accepted<'a> {
    /// A request, read.
    #[inline]
    pub(crate) fn request(message: &'a [u8]) -> Result<Self, Refusal> {
        Accepted { message, reading: read_request(message) }.unless_refused()
    }

    /// A reply, read.
    #[inline]
    pub(crate) fn reply(message: &'a [u8]) -> Result<Self, Refusal> {
        Accepted { message, reading: read_reply(message) }.unless_refused()
    }

    /// A reply that arrived at a table of outstanding requests. It leans on the contract of `tushalets_arrive` and on
    /// the law `arrive-whole` (crates/outstanding/proofs/Laws.antt): what is answered is all that the reply reader
    /// answers. So the cells are those of `read_reply`, and all that is said of a reply holds of it.
    #[inline]
    pub(crate) fn arrived(records: &mut [u64], message: &'a [u8]) -> Result<Self, Refusal> {
        Accepted { message, reading: arrive(records, message) }.unless_refused()
    }

    #[inline]
    fn unless_refused(self) -> Result<Self, Refusal> {
        match self.reading.shape {
            shapes::REFUSED => Err(Refusal { number: self.reading.number as u8, place: self.reading.place }),
            _ => Ok(self),
        }
    }

    #[inline]
    pub(crate) fn shape(&self) -> u32 {
        self.reading.shape
    }

    #[inline]
    pub(crate) fn id(&self) -> u32 {
        self.reading.id
    }

    #[inline]
    pub(crate) fn type_number(&self) -> u8 {
        self.reading.type_number as u8
    }

    #[inline]
    pub(crate) fn known(&self) -> usize {
        self.reading.known
    }

    /// The number in a cell.
    #[inline]
    pub(crate) fn number(&self, cell: usize) -> u64 {
        self.reading.fields[cell]
    }

    /// The part of the message that two cells show.
    #[inline]
    pub(crate) fn data(&self, cell: usize) -> &'a [u8] {
        part(self.message, self.number(cell) as usize, self.number(cell + 1) as usize)
    }

    /// The text that two cells show; empty where a message of this shape and type has no text there.
    #[inline]
    pub(crate) fn text(&self, cell: usize) -> &'a str {
        if !has_text(self.reading.shape, self.type_number(), cell) {
            return "";
        }
        // SAFETY: a reader accepted the message, and by document 01's table these cells show a string of it. By the law
        // `reading-sound` such a part is well-formed.
        unsafe { text_of(self.data(cell)) }
    }

    /// The names of a readdir reply; none of any other message.
    #[inline]
    pub(crate) fn names(&self) -> NamePosition<'a> {
        let (at, left) = match (self.reading.shape, self.type_number()) {
            (shapes::SUCCESS, types::READDIR_REPLY) => (self.number(1) as usize, self.number(2) as u32),
            _ => (0, 0),
        };
        NamePosition { message: self.message, at, left }
    }
}

/// A position among the names of an accepted readdir reply. Only [`Accepted::names`] makes one, and only steps move it.
#[derive(Clone, Copy)]
pub(crate) struct NamePosition<'a> {
    message: &'a [u8],
    at: usize,
    left: u32,
}

impl<'a> NamePosition<'a> {
    /// How many names are left.
    #[inline]
    pub(crate) fn left(&self) -> usize {
        self.left as usize
    }

    /// The name here, and the position behind it. After the last name there is none and the position stays.
    #[inline]
    pub(crate) fn step(&mut self) -> Option<&'a str> {
        let name = next_name(self.message, self.at, self.left);
        if name.found == 0 {
            return None;
        }
        (self.at, self.left) = (name.at, name.left);
        // SAFETY: by the law `names-sound`, of a reply whose reading has shape 4 and type 0x93, steps from its cells 1
        // and 2 meet exactly its names, each inside the message and well-formed. `names` starts there and only steps
        // move a position. On any other message it starts with none left, and a step finds no name.
        Some(unsafe { text_of(part(self.message, name.start, name.len)) })
    }
}

/// Whether an accepted message of this shape and type shows a text from this cell on, by document 01's table. A type
/// that is not listed shows none.
#[inline]
const fn has_text(shape: u32, type_number: u8, cell: usize) -> bool {
    match (shape, cell) {
        (shapes::KNOWN, 0) => matches!(type_number, types::ACCESS..=types::UTIMENS),
        (shapes::KNOWN, 2) => matches!(type_number, types::SYMLINK | types::LINK | types::RENAME),
        (shapes::SUCCESS, 0) => matches!(type_number, types::GETCREDS_REPLY),
        (shapes::SUCCESS, 1) => matches!(type_number, types::READLINK_REPLY),
        _ => false,
    }
}

/// A part of the message that cells or a step show. By the laws `reading-sound` and `step-inside` (the name that a step
/// from any position gives) it lies inside, so the index never fails.
#[inline]
fn part(message: &[u8], start: usize, len: usize) -> &[u8] {
    &message[start..][..len]
}

/// Well-formed bytes as text.
///
/// # Safety
///
/// The bytes are well-formed by document 01's list of ranges, which is RFC 3629's and all that `str` asks for.
#[inline]
unsafe fn text_of(bytes: &[u8]) -> &str {
    debug_assert!(core::str::from_utf8(bytes).is_ok());
    // SAFETY: the caller promises it.
    unsafe { core::str::from_utf8_unchecked(bytes) }
}

#[cfg(test)]
mod tests {
    use super::*;

    /// Data that is no text, in a request behind an empty path and in a reply.
    const WRITE_REQUEST: [u8; 30] =
        [0, 0, 0, 1, types::WRITE, 0, 0, 0, 0, 0, 0, 0, 1, 0x80, 0, 0, 0, 0, 0, 0, 0, 0, 0, 0, 0, 0, 0, 0, 0, 0];
    const READ_REPLY: [u8; 14] = [0, 0, 0, 1, types::READ_REPLY, 0, 0, 0, 1, 0, 0, 0, 1, 0x80];

    /// A readdir reply, and a failure of readdir with a name behind its result.
    const READDIR_REPLY: [u8; 18] = [0, 0, 0, 1, types::READDIR_REPLY, 0, 0, 0, 0, 0, 0, 0, 1, 0, 0, 0, 1, b'a'];
    const READDIR_FAILURE: [u8; 18] = {
        let mut message = READDIR_REPLY;
        message[5] = 0xff;
        message
    };

    /// Document 01's table in the order of the types: the kinds of a request's fields, and of a reply's with its
    /// result. S is a string.
    const KINDS: [(&str, &str); types::GETCREDS as usize] = [
        ("S i8", "i32"),                      // access
        ("S", "i32 attributes"),              // getattr
        ("S", "i32 S"),                       // readlink
        ("S S", "i32"),                       // symlink
        ("S S", "i32"),                       // link
        ("S S u8", "i32"),                    // rename
        ("S u32", "i32"),                     // chmod
        ("S u32 u32", "i32"),                 // chown
        ("S u64 u64", "i32"),                 // truncate
        ("S bool u64", "i32"),                // fsync
        ("S i32", "i32 u64"),                 // open
        ("S u32 u64", "i32"),                 // mknod
        ("S u32", "i32 u64"),                 // create
        ("S u64", "i32"),                     // release
        ("S", "i32"),                         // unlink
        ("S u32 u64 u64", "i32 bytes"),       // read
        ("S bytes u64 u64", "i32"),           // write
        ("S u32", "i32"),                     // mkdir
        ("S", "i32 strings"),                 // readdir
        ("S", "i32"),                         // rmdir
        ("S", "i32 statistics"),              // statfs
        ("S timestamp timestamp u64", "i32"), // utimens
        ("", "S"),                            // getcreds
    ];

    /// The cells of a reading.
    const CELLS: usize = 17;

    fn cells_of(kind: &str) -> usize {
        match kind {
            "S" | "bytes" | "strings" | "timestamp" => 2,
            "attributes" => 14,
            "statistics" => 8,
            _ => 1,
        }
    }

    /// Whether a string begins at this cell of fields of these kinds.
    fn begins_string(kinds: &str, cell: usize) -> bool {
        let mut next = 0;
        kinds.split_whitespace().any(|kind| {
            let here = next;
            next += cells_of(kind);
            kind == "S" && here == cell
        })
    }

    /// The kinds of the fields that a message of this shape and type shows; none where there is no such message.
    fn kinds_of(shape: u32, type_number: u8) -> &'static str {
        let method = |number: u8| number.checked_sub(1).and_then(|place| KINDS.get(place as usize));
        match shape {
            shapes::KNOWN => method(type_number).map_or("", |kinds| kinds.0),
            shapes::SUCCESS => type_number.checked_sub(types::REPLY).and_then(method).map_or("", |kinds| kinds.1),
            _ => "",
        }
    }

    #[test]
    fn texts_are_the_strings_of_the_table() {
        for shape in shapes::REFUSED..=shapes::SUCCESS {
            for type_number in 0..=u8::MAX {
                for cell in 0..=CELLS {
                    let expected = begins_string(kinds_of(shape, type_number), cell);
                    let place = (shape, type_number, cell);
                    assert_eq!(has_text(shape, type_number, cell), expected, "shape, type, cell {place:x?}");
                }
            }
        }
    }

    fn request(message: &[u8]) -> Accepted<'_> {
        Accepted::request(message).expect("a request")
    }

    fn reply(message: &[u8]) -> Accepted<'_> {
        Accepted::reply(message).expect("a reply")
    }

    #[test]
    fn cells_that_show_no_text_give_none() {
        for accepted in [request(&WRITE_REQUEST), reply(&READ_REPLY), reply(&READDIR_FAILURE)] {
            for cell in 0..=accepted.reading.fields.len() {
                assert_eq!(accepted.text(cell), "");
            }
        }
        assert_eq!(request(&WRITE_REQUEST).data(2), [0x80]);
        assert_eq!(reply(&READ_REPLY).data(1), [0x80]);
    }

    /// The reading of a reply that arrived is the reader's: the unsafe code above leans on it.
    #[test]
    fn an_arrived_reply_is_read_as_any() {
        for message in [&READ_REPLY[..], &READDIR_REPLY, &READDIR_FAILURE] {
            let mut records = [0; crate::RECORDS];
            assert_eq!(enter(&mut records, 1, message[4] - types::REPLY), 0);
            let arrived = Accepted::arrived(&mut records, message).expect("a reply to an outstanding request");
            assert_eq!((arrived.message, arrived.reading), (message, reply(message).reading));
            assert_eq!(records, [0; crate::RECORDS]);
        }
    }

    #[test]
    fn only_a_success_of_readdir_has_names() {
        assert_eq!(reply(&READDIR_REPLY).names().step(), Some("a"));
        // A readdir reply is also an unknown request.
        for accepted in [request(&WRITE_REQUEST), request(&READDIR_REPLY), reply(&READ_REPLY), reply(&READDIR_FAILURE)]
        {
            assert_eq!((accepted.names().left(), accepted.names().step()), (0, None));
        }
    }
}

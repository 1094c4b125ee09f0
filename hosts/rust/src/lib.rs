//! The message layer of the webfuse2 protocol: requests and replies read and written, over code that is proved.
//!
//! The readers and writers are a static library, `libtushalets.a`, written in Rattle, a language in which each function
//! is proved to meet its contract. This crate is a typed view of it: it adds no rule, copies no text or data in
//! reading, allocates nothing and needs no `std`. No message and no buffer needs a check beforehand.
//!
//! ```
//! use tushalets::{read_request, write_reply, Reply, Request, Success};
//!
//! // Once, before any other call: the linked library is the one that this crate is written for.
//! tushalets::check_version()?;
//!
//! let message = [0, 0, 0, 7, 0x0b, 0, 0, 0, 2, b'/', b'a', 0, 0, 0, 0];
//! let received = read_request(&message)?;
//! assert_eq!(received.body, Request::Open { path: "/a", flags: 0 });
//!
//! let mut out = [0; tushalets::LONGEST];
//! let reply = Reply::Success { result: 0, success: Success::Open { handle: 5 } };
//! let len = write_reply(received.id, &reply, &mut out)?;
//! assert_eq!(out[..len], [0, 0, 0, 7, 0x8b, 0, 0, 0, 0, 0, 0, 0, 0, 0, 0, 0, 5]);
//! # Ok::<(), Box<dyn std::error::Error>>(())
//! ```
//!
//! [`check_version`] comes before any other call, once at start: a library of another version must not be called. A
//! provider gives each message to [`front`], and reads with [`read_request`] what it hands on; a service reads with
//! [`read_reply`]. A service that has several requests under way keeps them in [`Outstanding`], which reads a reply too
//! and takes it where one of them asked for it.
//!
//! # Documents 01 and 02
//!
//! Document 01, which these pages refer to, is the customer's document of rules for the protocol: the table of methods
//! and their fields, the numbers of refusal, the front. It decides. How a reading shows the fields of each message is
//! the table of cells in `hosts/c/tushalets.h`. The table of outstanding requests, with refusals of its own, is item 5
//! of document 02, the customer's change requests.
//!
//! # Building
//!
//! The library is linked from `target/staticlib` of the repository, where `tools/build-library` writes it, or from the
//! folder whose absolute path is in the environment variable `TUSHALETS_LIB_DIR`. It is compiled for x86-64 Linux
//! alone.
#![no_std]
#![deny(unsafe_code)]
#![deny(unsafe_op_in_unsafe_fn)]
#![warn(missing_docs)]

#[cfg(not(all(target_arch = "x86_64", target_pointer_width = "64", target_os = "linux")))]
compile_error!("the proved code is compiled for x86-64 Linux alone");

mod cells;
mod names;
pub mod numbers;
mod outstanding;
#[allow(unsafe_code)]
pub mod raw;
mod refusal;
mod reply;
mod request;
mod structures;

pub use names::{NameRun, Names};
pub use outstanding::Outstanding;
pub use refusal::Refusal;
pub use reply::{read_reply, write_reply, Reply, Success};
pub use request::{read_request, write_request, Request};
pub use structures::{Attributes, Statistics, Timestamp};

use core::error::Error;
use core::fmt;
use numbers::acts;

/// The version of the exported functions that this crate is written for.
pub const VERSION: u32 = 3;

/// The length of the longest message.
pub const LONGEST: usize = 65_536;

/// A buffer of this length holds every listing.
pub const LONGEST_LISTING: usize = 256;

/// The records of a table of outstanding requests.
pub const RECORDS: usize = 64;

/// The linked library is of another version than this crate.
#[derive(Clone, Copy, Debug, PartialEq, Eq)]
pub struct WrongVersion {
    /// The version of the linked library.
    pub linked: u32,
}

impl fmt::Display for WrongVersion {
    fn fmt(&self, f: &mut fmt::Formatter<'_>) -> fmt::Result {
        write!(f, "the linked library has version {}, this crate is written for {VERSION}", self.linked)
    }
}

impl Error for WrongVersion {}

/// Whether the linked library is of the version that this crate is written for. Call it once at start, before any other
/// function; where it fails, call none of them.
///
/// ```
/// tushalets::check_version()?;
/// # Ok::<(), tushalets::WrongVersion>(())
/// ```
pub fn check_version() -> Result<(), WrongVersion> {
    match raw::version() {
        VERSION => Ok(()),
        linked => Err(WrongVersion { linked }),
    }
}

/// A message that was accepted.
#[derive(Clone, Copy, Debug, PartialEq, Eq)]
pub struct Received<T> {
    /// The id, the same in a request and its reply.
    pub id: u32,
    /// The length of the known part. Bytes behind it are a newer end's and change nothing.
    pub known: usize,
    /// What the message says.
    pub body: T,
}

/// What the front did with a request.
#[derive(Clone, Copy, Debug, PartialEq, Eq)]
pub enum Fronted {
    /// The request is good and needs the file system. Nothing was stored.
    HandedOn,
    /// So many bytes of a reply are at the start of the buffer.
    Stored(usize),
}

/// Answers a request that needs no file system: an unknown one, or a damaged one. A good request is handed on.
///
/// ```
/// use tushalets::{front, numbers::refusals, Fronted};
///
/// let mut out = [0; 9];
/// assert_eq!(front(&[0, 0, 0, 0x23, 0x42], &mut out), Ok(Fronted::Stored(5)));
/// assert_eq!(out[..5], [0, 0, 0, 0x23, 0x80]);
///
/// // A path that is no text: an invalid argument, -22.
/// assert_eq!(front(&[0, 0, 0, 5, 0x0f, 0, 0, 0, 1, 0x80], &mut out), Ok(Fronted::Stored(9)));
/// assert_eq!(out, [0, 0, 0, 5, 0x8f, 0xff, 0xff, 0xff, 0xea]);
///
/// assert_eq!(front(&[0, 0, 0, 5, 0x0f, 0, 0, 0, 1, b'/'], &mut out), Ok(Fronted::HandedOn));
///
/// // Fewer than five bytes have no id to answer with.
/// assert_eq!(front(&[0, 0, 0, 5], &mut out).unwrap_err().number, refusals::TRUNCATED_HEADER);
/// ```
#[inline]
pub fn front(message: &[u8], out: &mut [u8]) -> Result<Fronted, Refusal> {
    let fronted = raw::front(message, out);
    match fronted.act {
        acts::HANDED_ON => Ok(Fronted::HandedOn),
        acts::STORED => Ok(Fronted::Stored(fronted.len)),
        _ => Err(Refusal { number: fronted.number as u8, place: fronted.place }),
    }
}

/// Stores the listing of a request at the start of `out`, also of one that is refused, and answers its length.
/// [`LONGEST_LISTING`] bytes hold every listing.
///
/// ```
/// let mut out = [0; tushalets::LONGEST_LISTING];
/// let len = tushalets::list_request(&[0, 0, 0, 7, 0x01, 0, 0, 0, 2, b'/', b'a', 4], &mut out)?;
/// assert_eq!(&out[..len], b"access id 7\npath 2\nmode 4\nknown 12 of 12\n");
/// # Ok::<(), tushalets::Refusal>(())
/// ```
#[inline]
pub fn list_request(message: &[u8], out: &mut [u8]) -> Result<usize, Refusal> {
    written(raw::list_request(message, out))
}

/// Where the longest well-formed UTF-8 beginning of `text` ends. `text` is well-formed exactly when that is its length.
///
/// ```
/// assert_eq!(tushalets::well_formed_end(b"caf\xc3\xa9"), 5);
/// assert_eq!(tushalets::well_formed_end(b"caf\xc3"), 3);
/// ```
#[inline]
pub fn well_formed_end(text: &[u8]) -> usize {
    raw::well_formed_end(text)
}

/// The length that a writer stored, or its refusal.
#[inline]
fn written(told: raw::Written) -> Result<usize, Refusal> {
    match told.number {
        0 => Ok(told.len),
        number => Err(Refusal { number: number as u8, place: told.place }),
    }
}

/// The Rust of the README compiles.
#[cfg(doctest)]
#[doc = include_str!("../../../README.md")]
pub struct Readme;

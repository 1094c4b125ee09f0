use crate::raw::{self, Accepted};
use crate::reply::received;
use crate::{Received, Refusal, Reply, RECORDS};
use core::fmt;

/// The word of a free record.
const FREE: u64 = 0;

/// Where the type stands in the word of a held record; the id is below it.
const TYPE_SHIFT: u32 = 32;

/// The requests of a service that still wait for a reply: ids, each with the type of its request.
///
/// A request is entered before it is sent. A reply that arrives is read, and taken where its id is outstanding and its
/// type is the request's plus 0x80 or the unknown response. The id is then free, and so is its room. A refusal changes
/// nothing. A request whose reply never comes, or that could not be sent, stays outstanding; only emptying
/// ([`clear`](Self::clear)) removes it.
///
/// The records are inside; nothing is allocated. Only these functions change them, so the table is always sound and a
/// refusal as [`UNSOUND_TABLE`](crate::numbers::refusals::UNSOUND_TABLE) never occurs. A service whose records lie
/// elsewhere lends them to the functions in [`raw`].
///
/// Two tables are equal where the same ids are outstanding with the same types, in whatever order they were entered.
///
/// ```
/// use tushalets::{numbers::{refusals, types}, Outstanding, Reply, Request, Success};
///
/// let mut outstanding = Outstanding::new();
/// let request = Request::Open { path: "/a", flags: 0 };
/// outstanding.enter(7, request.type_number())?;
///
/// // A reply that no request asked for.
/// let stray = [0, 0, 0, 8, 0x81, 0, 0, 0, 0];
/// assert_eq!(outstanding.arrive(&stray).unwrap_err().number, refusals::ID_NOT_OUTSTANDING);
/// assert_eq!(outstanding.type_of(7), Some(types::OPEN));
///
/// let reply = [0, 0, 0, 7, 0x8b, 0, 0, 0, 0, 0, 0, 0, 0, 0, 0, 0, 5];
/// let received = outstanding.arrive(&reply)?;
/// assert_eq!(received.id, 7);
/// assert_eq!(received.body, Reply::Success { result: 0, success: Success::Open { handle: 5 } });
///
/// // Its room is free again, and so is its id. The same reply has no request now.
/// assert!(outstanding.is_empty());
/// assert_eq!(outstanding.arrive(&reply).unwrap_err().number, refusals::ID_NOT_OUTSTANDING);
/// outstanding.enter(7, types::GETATTR)?;
/// # Ok::<(), tushalets::Refusal>(())
/// ```
#[derive(Clone)]
pub struct Outstanding {
    records: [u64; RECORDS],
}

impl Outstanding {
    /// So many requests may be outstanding at a time.
    pub const CAPACITY: usize = RECORDS;

    /// A table with no request.
    #[inline]
    pub const fn new() -> Self {
        Outstanding { records: [FREE; RECORDS] }
    }

    /// Enters a request. Refused are, in this order, a type of 0x80 or above
    /// ([`UNEXPECTED_TYPE`](crate::numbers::refusals::UNEXPECTED_TYPE)), an id that is outstanding
    /// ([`ID_OUTSTANDING`](crate::numbers::refusals::ID_OUTSTANDING)), and any request while
    /// [`CAPACITY`](Self::CAPACITY) of them are ([`TABLE_FULL`](crate::numbers::refusals::TABLE_FULL)).
    ///
    /// ```
    /// use tushalets::{numbers::{refusals, types}, Outstanding};
    ///
    /// let mut outstanding = Outstanding::new();
    /// for id in 0..64 {
    ///     outstanding.enter(id, types::READ)?;
    /// }
    /// assert_eq!(outstanding.enter(64, types::READ).unwrap_err().number, refusals::TABLE_FULL);
    /// assert_eq!(outstanding.enter(63, types::READ).unwrap_err().number, refusals::ID_OUTSTANDING);
    /// # Ok::<(), tushalets::Refusal>(())
    /// ```
    #[inline]
    pub fn enter(&mut self, id: u32, type_number: u8) -> Result<(), Refusal> {
        match raw::enter(&mut self.records, id, type_number) {
            0 => Ok(()),
            number => Err(Refusal { number: number as u8, place: 0 }),
        }
    }

    /// Reads a reply as [`read_reply`](crate::read_reply) does, and removes the request that it answers. Refused are,
    /// in this order, a message that the reader refuses, an id that is not outstanding
    /// ([`ID_NOT_OUTSTANDING`](crate::numbers::refusals::ID_NOT_OUTSTANDING)), and a type that no reply to the request
    /// has ([`TYPE_MISMATCH`](crate::numbers::refusals::TYPE_MISMATCH)).
    #[inline]
    pub fn arrive<'a>(&mut self, message: &'a [u8]) -> Result<Received<Reply<'a>>, Refusal> {
        Accepted::arrived(&mut self.records, message).map(|accepted| received(&accepted))
    }

    /// How many requests are outstanding.
    #[inline]
    pub fn len(&self) -> usize {
        const ANY_ID: u32 = 0;
        raw::look(&self.records, ANY_ID).count
    }

    /// Whether no request is outstanding.
    #[inline]
    pub fn is_empty(&self) -> bool {
        self.len() == 0
    }

    /// The type of the request with this id, where it is outstanding.
    #[inline]
    pub fn type_of(&self, id: u32) -> Option<u8> {
        let looked = raw::look(&self.records, id);
        (looked.held != 0).then_some(looked.type_number as u8)
    }

    /// Removes all requests.
    #[inline]
    pub fn clear(&mut self) {
        let number = raw::empty(&mut self.records);
        debug_assert_eq!(number, 0, "only another number of records is refused");
    }

    /// The ids and the types of their requests, in the order of the records.
    fn held(&self) -> impl Iterator<Item = (u32, u8)> + '_ {
        let words = self.records.iter().filter(|word| **word != FREE);
        words.map(|word| (*word as u32, (word >> TYPE_SHIFT) as u8))
    }
}

impl Default for Outstanding {
    #[inline]
    fn default() -> Self {
        Self::new()
    }
}

impl PartialEq for Outstanding {
    fn eq(&self, other: &Self) -> bool {
        self.len() == other.len() && self.held().all(|(id, type_number)| other.type_of(id) == Some(type_number))
    }
}

impl Eq for Outstanding {}

/// The ids, each with the type of its request.
impl fmt::Debug for Outstanding {
    fn fmt(&self, f: &mut fmt::Formatter<'_>) -> fmt::Result {
        f.debug_map().entries(self.held()).finish()
    }
}

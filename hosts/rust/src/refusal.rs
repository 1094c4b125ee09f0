use crate::numbers::refusals;
use core::error::Error;
use core::fmt;

/// Why a message was not read or not written, or a table of outstanding requests not changed: the number of refusal in
/// documents 01 and 02, and its place in the message.
///
/// ```
/// use tushalets::numbers::refusals;
///
/// // A getattr request that declares a path of 2 bytes and has 1 of them.
/// let message = [0, 0, 0, 1, 0x02, 0, 0, 0, 2, b'/'];
/// let refusal = tushalets::read_request(&message).unwrap_err();
/// assert_eq!((refusal.number, refusal.place), (refusals::TRUNCATED, 9));
/// assert_eq!(refusal.name(), "truncated");
/// assert_eq!(refusal.to_string(), "refused 4 at 9: truncated");
///
/// // Of malformed text the place is where the first broken character begins: `caf` is well-formed, `\xe9` alone is not.
/// let message = *b"\0\0\0\x05\x0f\0\0\0\x04caf\xe9";
/// assert_eq!(tushalets::read_request(&message).unwrap_err().to_string(), "refused 5 at 12: malformed text");
/// ```
#[derive(Clone, Copy, Debug, PartialEq, Eq, Hash)]
pub struct Refusal {
    /// 1 to 9 of messages, 10 to 13 and 20 of a table; [`refusals`] has their names.
    pub number: u8,
    /// Where in the message; 0 of a writer and of a table.
    pub place: usize,
}

impl Refusal {
    /// What the number means, in a few words.
    pub const fn name(&self) -> &'static str {
        match self.number {
            refusals::TRUNCATED_HEADER => "truncated header",
            refusals::OVERSIZE => "oversize",
            refusals::UNEXPECTED_TYPE => "unexpected type",
            refusals::TRUNCATED => "truncated",
            refusals::MALFORMED_TEXT => "malformed text",
            refusals::DATA_LENGTH_MISMATCH => "data length mismatch",
            refusals::BUFFER_TOO_SMALL => "buffer too small",
            refusals::RESULT_SIGN => "result sign",
            refusals::LENGTHS_MISMATCH => "lengths mismatch",
            refusals::ID_OUTSTANDING => "id outstanding",
            refusals::TABLE_FULL => "table full",
            refusals::ID_NOT_OUTSTANDING => "id not outstanding",
            refusals::TYPE_MISMATCH => "type mismatch",
            refusals::UNSOUND_TABLE => "unsound table",
            _ => "no refusal",
        }
    }
}

impl fmt::Display for Refusal {
    fn fmt(&self, f: &mut fmt::Formatter<'_>) -> fmt::Result {
        write!(f, "refused {} at {}: {}", self.number, self.place, self.name())
    }
}

impl Error for Refusal {}

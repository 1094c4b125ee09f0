//! The numbers of documents 01 and 02 and of the exported functions, by name.

/// The type of a message.
pub mod types {
    #![allow(missing_docs)] // Each is named for its method.

    pub const ACCESS: u8 = 0x01;
    pub const GETATTR: u8 = 0x02;
    pub const READLINK: u8 = 0x03;
    pub const SYMLINK: u8 = 0x04;
    pub const LINK: u8 = 0x05;
    pub const RENAME: u8 = 0x06;
    pub const CHMOD: u8 = 0x07;
    pub const CHOWN: u8 = 0x08;
    pub const TRUNCATE: u8 = 0x09;
    pub const FSYNC: u8 = 0x0a;
    pub const OPEN: u8 = 0x0b;
    pub const MKNOD: u8 = 0x0c;
    pub const CREATE: u8 = 0x0d;
    pub const RELEASE: u8 = 0x0e;
    pub const UNLINK: u8 = 0x0f;
    pub const READ: u8 = 0x10;
    pub const WRITE: u8 = 0x11;
    pub const MKDIR: u8 = 0x12;
    pub const READDIR: u8 = 0x13;
    pub const RMDIR: u8 = 0x14;
    pub const STATFS: u8 = 0x15;
    pub const UTIMENS: u8 = 0x16;
    pub const GETCREDS: u8 = 0x17;

    /// The type of a method's reply is that of its request plus this.
    pub const REPLY: u8 = 0x80;

    pub const ACCESS_REPLY: u8 = ACCESS + REPLY;
    pub const GETATTR_REPLY: u8 = GETATTR + REPLY;
    pub const READLINK_REPLY: u8 = READLINK + REPLY;
    pub const SYMLINK_REPLY: u8 = SYMLINK + REPLY;
    pub const LINK_REPLY: u8 = LINK + REPLY;
    pub const RENAME_REPLY: u8 = RENAME + REPLY;
    pub const CHMOD_REPLY: u8 = CHMOD + REPLY;
    pub const CHOWN_REPLY: u8 = CHOWN + REPLY;
    pub const TRUNCATE_REPLY: u8 = TRUNCATE + REPLY;
    pub const FSYNC_REPLY: u8 = FSYNC + REPLY;
    pub const OPEN_REPLY: u8 = OPEN + REPLY;
    pub const MKNOD_REPLY: u8 = MKNOD + REPLY;
    pub const CREATE_REPLY: u8 = CREATE + REPLY;
    pub const RELEASE_REPLY: u8 = RELEASE + REPLY;
    pub const UNLINK_REPLY: u8 = UNLINK + REPLY;
    pub const READ_REPLY: u8 = READ + REPLY;
    pub const WRITE_REPLY: u8 = WRITE + REPLY;
    pub const MKDIR_REPLY: u8 = MKDIR + REPLY;
    pub const READDIR_REPLY: u8 = READDIR + REPLY;
    pub const RMDIR_REPLY: u8 = RMDIR + REPLY;
    pub const STATFS_REPLY: u8 = STATFS + REPLY;
    pub const UTIMENS_REPLY: u8 = UTIMENS + REPLY;
    pub const GETCREDS_REPLY: u8 = GETCREDS + REPLY;

    /// The reply to a request of a type that no method has.
    pub const UNKNOWN_RESPONSE: u8 = 0x80;
}

/// What a reader answered: [`Reading::shape`](crate::raw::Reading::shape).
pub mod shapes {
    /// The message is refused.
    pub const REFUSED: u32 = 0;
    /// A request of a type that no method has, or the unknown response.
    pub const UNKNOWN: u32 = 1;
    /// A request of a method.
    pub const KNOWN: u32 = 2;
    /// A reply with a negative result.
    pub const FAILURE: u32 = 3;
    /// A reply with a result of 0 or more, or that of getcreds, which has none.
    pub const SUCCESS: u32 = 4;
}

/// What the front did: [`Fronted::act`](crate::raw::Fronted::act).
pub mod acts {
    /// The request is good and needs the file system.
    pub const HANDED_ON: u32 = 0;
    /// An answer is in the buffer.
    pub const STORED: u32 = 1;
    /// There is no answer.
    pub const REFUSED: u32 = 2;
}

/// The numbers of refusal: [`Refusal::number`](crate::Refusal::number).
pub mod refusals {
    /// Fewer than 5 bytes (document 01: runt).
    pub const TRUNCATED_HEADER: u8 = 1;
    /// More than 65,536 bytes, read or to be written (over-long).
    pub const OVERSIZE: u8 = 2;
    /// A type that such a message cannot have (stray), or that no request can be entered with.
    pub const UNEXPECTED_TYPE: u8 = 3;
    /// A number, or a run of declared length, does not fit (short).
    pub const TRUNCATED: u8 = 4;
    /// A string is not well-formed UTF-8 (text). In reading, the place is where its first broken character begins.
    pub const MALFORMED_TEXT: u8 = 5;
    /// The result of a read reply is not the length of its data (tally).
    pub const DATA_LENGTH_MISMATCH: u8 = 6;
    /// The buffer is shorter than what is to be written (room).
    pub const BUFFER_TOO_SMALL: u8 = 7;
    /// A failure with a code of 0 or more, or a success with a negative result (sign).
    pub const RESULT_SIGN: u8 = 8;
    /// The lengths of names do not sum to their run (list).
    pub const LENGTHS_MISMATCH: u8 = 9;
    /// A request with this id is outstanding already.
    pub const ID_OUTSTANDING: u8 = 10;
    /// Every record of the table holds a request.
    pub const TABLE_FULL: u8 = 11;
    /// A reply to an id that is not outstanding.
    pub const ID_NOT_OUTSTANDING: u8 = 12;
    /// A reply of a type that does not answer the request.
    pub const TYPE_MISMATCH: u8 = 13;
    /// No table of outstanding requests: not 64 records, a word that is no record, an id that is held twice, or a held
    /// type of 0x80 or above.
    pub const UNSOUND_TABLE: u8 = 20;
}

//! Document 01's table: the types of the methods and the kinds of their fields.

use Kind::{Bool, Run, I32, I8, U32, U64, U8};

pub const ACCESS: u8 = 0x01;
pub const GETATTR: u8 = 0x02;
pub const READLINK: u8 = 0x03;
pub const SYMLINK: u8 = 0x04;
pub const LINK: u8 = 0x05;
pub const RENAME: u8 = 0x06;
pub const CHMOD: u8 = 0x07;
pub const CHOWN: u8 = 0x08;
pub const TRUNCATE: u8 = 0x09;
pub const FSYNC: u8 = 0x0a;
pub const OPEN: u8 = 0x0b;
pub const MKNOD: u8 = 0x0c;
pub const CREATE: u8 = 0x0d;
pub const RELEASE: u8 = 0x0e;
pub const UNLINK: u8 = 0x0f;
pub const READ: u8 = 0x10;
pub const WRITE: u8 = 0x11;
pub const MKDIR: u8 = 0x12;
pub const READDIR: u8 = 0x13;
pub const RMDIR: u8 = 0x14;
pub const STATFS: u8 = 0x15;
pub const UTIMENS: u8 = 0x16;
pub const GETCREDS: u8 = 0x17;

/// A reply's type is the request's and this.
pub const REPLY: u8 = 0x80;

pub const READDIR_REPLY: u8 = REPLY + READDIR;
pub const GETCREDS_REPLY: u8 = REPLY + GETCREDS;

/// The most number fields that a request has, and a success behind its result.
pub const REQUEST_NUMBERS: usize = 5;
pub const SUCCESS_NUMBERS: usize = 14;

/// The kind of a field. A text and data are given alike.
#[derive(Clone, Copy)]
pub enum Kind {
    U8,
    I8,
    U32,
    I32,
    U64,
    Bool,
    Run,
}

/// The members of attributes; a timestamp is a U64 and a U32.
const ATTRIBUTES: [Kind; 14] = [U64, U64, U32, U32, U32, U64, U64, U64, U64, U32, U64, U32, U64, U32];

const STATISTICS: [Kind; 8] = [U64; 8];

/// The fields of a request; none where no method has this type.
pub fn request_kinds(type_number: u8) -> Option<&'static [Kind]> {
    Some(match type_number {
        ACCESS => &[Run, I8],
        SYMLINK | LINK => &[Run, Run],
        RENAME => &[Run, Run, U8],
        CHMOD | CREATE | MKDIR => &[Run, U32],
        CHOWN => &[Run, U32, U32],
        TRUNCATE => &[Run, U64, U64],
        FSYNC => &[Run, Bool, U64],
        OPEN => &[Run, I32],
        MKNOD => &[Run, U32, U64],
        RELEASE => &[Run, U64],
        READ => &[Run, U32, U64, U64],
        WRITE => &[Run, Run, U64, U64],
        UTIMENS => &[Run, U64, U32, U64, U32, U64],
        GETCREDS => &[],
        GETATTR | READLINK | UNLINK | READDIR | RMDIR | STATFS => &[Run],
        _ => return None,
    })
}

/// The fields behind the result of a success without names; none where no method has a reply of this type.
pub fn success_kinds(type_number: u8) -> Option<&'static [Kind]> {
    Some(match type_number.checked_sub(REPLY)? {
        GETATTR => &ATTRIBUTES,
        READLINK | READ => &[Run],
        OPEN | CREATE => &[U64],
        STATFS => &STATISTICS,
        READDIR => return None,
        ACCESS..=UTIMENS => &[],
        _ => return None,
    })
}

//! The methods and the fields of their messages.

use Kind::*;

/// How a field is laid out. Timestamps, attributes and statistics stand in
/// the tables below as their members.
#[derive(Clone, Copy, Debug, PartialEq, Eq)]
pub enum Kind {
    U8,
    U32,
    U64,
    I8,
    I32,
    Bool,
    Text,
    Data,
    Names,
}

impl Kind {
    /// Bytes of a number; nothing for texts, data and names.
    pub fn width(self) -> Option<usize> {
        match self {
            U8 | I8 | Bool => Some(1),
            U32 | I32 => Some(4),
            U64 => Some(8),
            Text | Data | Names => None,
        }
    }
}

#[derive(Debug, PartialEq)]
pub struct Field {
    pub name: &'static str,
    pub kind: Kind,
}

/// A reply's type is its request's type plus this.
pub const REPLY_OFFSET: u8 = 0x80;

/// `number` is the request's type.
#[derive(Debug, PartialEq)]
pub struct Method {
    pub number: u8,
    pub name: &'static str,
    pub request: &'static [Field],
    pub reply: &'static [Field],
}

impl Method {
    pub fn reply_number(&self) -> u8 {
        self.number + REPLY_OFFSET
    }
}

pub const ACCESS: u8 = 0x01;
pub const READ: u8 = 0x10;
pub const READDIR: u8 = 0x13;
pub const UTIMENS: u8 = 0x16;
pub const GETCREDS: u8 = 0x17;
pub const UNKNOWN_RESPONSE: u8 = 0x80;

const fn field(name: &'static str, kind: Kind) -> Field {
    Field { name, kind }
}

const fn row(
    number: u8,
    name: &'static str,
    request: &'static [Field],
    reply: &'static [Field],
) -> Method {
    Method { number, name, request, reply }
}

const PATH: Field = field("path", Text);
const OLD_PATH: Field = field("old_path", Text);
const NEW_PATH: Field = field("new_path", Text);
const MODE: Field = field("mode", U32);
const UID: Field = field("uid", U32);
const GID: Field = field("gid", U32);
const SIZE: Field = field("size", U64);
const OFFSET: Field = field("offset", U64);
const HANDLE: Field = field("handle", U64);
const DATA: Field = field("data", Data);
const BLOCKS: Field = field("blocks", U64);
const ATIME: Field = field("atime", U64);
const ATIME_NSEC: Field = field("atime.nsec", U32);
const MTIME: Field = field("mtime", U64);
const MTIME_NSEC: Field = field("mtime.nsec", U32);
const CTIME: Field = field("ctime", U64);
const CTIME_NSEC: Field = field("ctime.nsec", U32);

const ATTRIBUTES: &[Field] = &[
    field("inode", U64),
    field("nlink", U64),
    MODE,
    UID,
    GID,
    field("rdev", U64),
    SIZE,
    BLOCKS,
    ATIME,
    ATIME_NSEC,
    MTIME,
    MTIME_NSEC,
    CTIME,
    CTIME_NSEC,
];

const STATISTICS: &[Field] = &[
    field("bsize", U64),
    field("frsize", U64),
    BLOCKS,
    field("bfree", U64),
    field("bavail", U64),
    field("files", U64),
    field("ffree", U64),
    field("namemax", U64),
];

pub static METHODS: [Method; 23] = [
    row(0x01, "access", &[PATH, field("mode", I8)], &[]),
    row(0x02, "getattr", &[PATH], ATTRIBUTES),
    row(0x03, "readlink", &[PATH], &[field("resolved", Text)]),
    row(0x04, "symlink", &[field("target", Text), field("linkpath", Text)], &[]),
    row(0x05, "link", &[OLD_PATH, NEW_PATH], &[]),
    row(0x06, "rename", &[OLD_PATH, NEW_PATH, field("flags", U8)], &[]),
    row(0x07, "chmod", &[PATH, MODE], &[]),
    row(0x08, "chown", &[PATH, UID, GID], &[]),
    row(0x09, "truncate", &[PATH, SIZE, HANDLE], &[]),
    row(0x0a, "fsync", &[PATH, field("is_datasync", Bool), HANDLE], &[]),
    row(0x0b, "open", &[PATH, field("flags", I32)], &[HANDLE]),
    row(0x0c, "mknod", &[PATH, MODE, field("dev", U64)], &[]),
    row(0x0d, "create", &[PATH, MODE], &[HANDLE]),
    row(0x0e, "release", &[PATH, HANDLE], &[]),
    row(0x0f, "unlink", &[PATH], &[]),
    row(0x10, "read", &[PATH, field("buffer_size", U32), OFFSET, HANDLE], &[DATA]),
    // Item 3 of document 02 puts the path before the fields of the page.
    row(0x11, "write", &[PATH, DATA, OFFSET, HANDLE], &[]),
    row(0x12, "mkdir", &[PATH, MODE], &[]),
    row(0x13, "readdir", &[PATH], &[field("items", Names)]),
    row(0x14, "rmdir", &[PATH], &[]),
    row(0x15, "statfs", &[PATH], STATISTICS),
    row(0x16, "utimens", &[PATH, ATIME, ATIME_NSEC, MTIME, MTIME_NSEC, HANDLE], &[]),
    row(0x17, "getcreds", &[], &[field("creds", Text)]),
];

pub fn method_of_request(number: u8) -> Option<&'static Method> {
    METHODS.iter().find(|method| method.number == number)
}

pub fn method_of_reply(number: u8) -> Option<&'static Method> {
    METHODS.iter().find(|method| method.reply_number() == number)
}

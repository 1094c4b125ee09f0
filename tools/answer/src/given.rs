//! The fields of a message to be written, as the exported writers take them, and the message with types.

use crate::body::{Body, Malformed};
use crate::methods::*;
use tushalets::{Attributes, NameRun, Request, Statistics, Success, Timestamp};

/// Number fields in order, `N` at most, and texts or data in order.
pub struct Given<const N: usize> {
    pub numbers: [u64; N],
    pub runs: [Vec<u8>; 2],
}

pub type GivenRequest = Given<REQUEST_NUMBERS>;

pub type GivenSuccess = Given<SUCCESS_NUMBERS>;

impl<const N: usize> Given<N> {
    /// Takes fields of these kinds.
    pub fn take(body: &mut Body<'_>, kinds: &[Kind]) -> Result<Self, Malformed> {
        let mut given = Given { numbers: [0; N], runs: Default::default() };
        let (mut numbers, mut runs) = (given.numbers.iter_mut(), given.runs.iter_mut());
        for kind in kinds {
            if let Kind::Run = kind {
                *runs.next().expect("a method has at most two texts or data") = body.run()?;
            } else {
                *numbers.next().expect("a method has at most N numbers") = take_number(body, *kind)?;
            }
        }
        Ok(given)
    }

    fn timestamp(&self, i: usize) -> Timestamp {
        Timestamp { seconds: self.numbers[i], nsec: self.numbers[i + 1] as u32 }
    }
}

/// A number in the low bits of a word. A signed one keeps its sign, so that the bits above are not all zero.
fn take_number(body: &mut Body<'_>, kind: Kind) -> Result<u64, Malformed> {
    Ok(match kind {
        Kind::U8 => body.u8()?.into(),
        Kind::I8 => i64::from(body.i8()?) as u64,
        Kind::U32 => body.u32()?.into(),
        Kind::I32 => i64::from(body.i32()?) as u64,
        Kind::U64 => body.u64()?,
        Kind::Bool => body.bool()?.into(),
        Kind::Run => unreachable!("a run is no number"),
    })
}

fn text(bytes: &[u8]) -> Option<&str> {
    core::str::from_utf8(bytes).ok()
}

/// The request of this type; none where a text is malformed, for a `str` cannot hold it.
pub fn request(type_number: u8, given: &GivenRequest) -> Option<Request<'_>> {
    let Given { numbers: n, runs: [first, second] } = given;
    let path = text(first)?;
    if type_number == WRITE {
        return Some(Request::Write { path, data: second, offset: n[0], handle: n[1] });
    }
    let other = text(second)?;
    Some(match type_number {
        ACCESS => Request::Access { path, mode: n[0] as i8 },
        GETATTR => Request::Getattr { path },
        READLINK => Request::Readlink { path },
        SYMLINK => Request::Symlink { target: path, linkpath: other },
        LINK => Request::Link { old_path: path, new_path: other },
        RENAME => Request::Rename { old_path: path, new_path: other, flags: n[0] as u8 },
        CHMOD => Request::Chmod { path, mode: n[0] as u32 },
        CHOWN => Request::Chown { path, uid: n[0] as u32, gid: n[1] as u32 },
        TRUNCATE => Request::Truncate { path, size: n[0], handle: n[1] },
        FSYNC => Request::Fsync { path, is_datasync: n[0] != 0, handle: n[1] },
        OPEN => Request::Open { path, flags: n[0] as i32 },
        MKNOD => Request::Mknod { path, mode: n[0] as u32, dev: n[1] },
        CREATE => Request::Create { path, mode: n[0] as u32 },
        RELEASE => Request::Release { path, handle: n[0] },
        UNLINK => Request::Unlink { path },
        READ => Request::Read { path, buffer_size: n[0] as u32, offset: n[1], handle: n[2] },
        MKDIR => Request::Mkdir { path, mode: n[0] as u32 },
        READDIR => Request::Readdir { path },
        RMDIR => Request::Rmdir { path },
        STATFS => Request::Statfs { path },
        UTIMENS => Request::Utimens { path, atime: given.timestamp(0), mtime: given.timestamp(2), handle: n[4] },
        GETCREDS => Request::Getcreds,
        _ => return None,
    })
}

/// The success of this type, without names; none where its text is malformed.
pub fn success(type_number: u8, given: &GivenSuccess) -> Option<Success<'_, NameRun<'_>>> {
    Some(match type_number.checked_sub(REPLY)? {
        ACCESS => Success::Access,
        GETATTR => Success::Getattr(attributes(given)),
        READLINK => Success::Readlink { resolved: text(&given.runs[0])? },
        SYMLINK => Success::Symlink,
        LINK => Success::Link,
        RENAME => Success::Rename,
        CHMOD => Success::Chmod,
        CHOWN => Success::Chown,
        TRUNCATE => Success::Truncate,
        FSYNC => Success::Fsync,
        OPEN => Success::Open { handle: given.numbers[0] },
        MKNOD => Success::Mknod,
        CREATE => Success::Create { handle: given.numbers[0] },
        RELEASE => Success::Release,
        UNLINK => Success::Unlink,
        READ => Success::Read { data: &given.runs[0] },
        WRITE => Success::Write,
        MKDIR => Success::Mkdir,
        RMDIR => Success::Rmdir,
        STATFS => Success::Statfs(statistics(given)),
        UTIMENS => Success::Utimens,
        _ => return None,
    })
}

fn attributes(given: &GivenSuccess) -> Attributes {
    let n = &given.numbers;
    Attributes {
        inode: n[0],
        nlink: n[1],
        mode: n[2] as u32,
        uid: n[3] as u32,
        gid: n[4] as u32,
        rdev: n[5],
        size: n[6],
        blocks: n[7],
        atime: given.timestamp(8),
        mtime: given.timestamp(10),
        ctime: given.timestamp(12),
    }
}

fn statistics(given: &GivenSuccess) -> Statistics {
    let [bsize, frsize, blocks, bfree, bavail, files, ffree, namemax, ..] = given.numbers;
    Statistics { bsize, frsize, blocks, bfree, bavail, files, ffree, namemax }
}

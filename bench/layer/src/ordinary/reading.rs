use super::{refuse, HEADER_SIZE};
use crate::common::well_formed_end;
use tushalets::numbers::{refusals, types};
use tushalets::{Attributes, Received, Refusal, Reply, Request, Statistics, Success, Timestamp, LONGEST};

/// Where the type of a message stands, and where the result of a reply does.
pub const TYPE_PLACE: usize = 4;
const RESULT_PLACE: usize = 5;

/// What is left of a message. A field is taken from its start.
struct Reader<'a> {
    len: usize,
    rest: &'a [u8],
}

impl<'a> Reader<'a> {
    /// A message of a length that is allowed.
    #[inline]
    fn new(message: &'a [u8]) -> Result<Self, Refusal> {
        match message.len() {
            0..HEADER_SIZE => refuse(refusals::TRUNCATED_HEADER, 0),
            HEADER_SIZE..=LONGEST => Ok(Reader { len: message.len(), rest: message }),
            _ => refuse(refusals::OVERSIZE, 0),
        }
    }

    #[inline]
    fn place(&self) -> usize {
        self.len - self.rest.len()
    }

    #[inline]
    fn take<const N: usize>(&mut self) -> Result<[u8; N], Refusal> {
        let Some((bytes, rest)) = self.rest.split_first_chunk() else {
            return refuse(refusals::TRUNCATED, self.place());
        };
        self.rest = rest;
        Ok(*bytes)
    }

    #[inline]
    fn u8(&mut self) -> Result<u8, Refusal> {
        self.take().map(u8::from_be_bytes)
    }

    #[inline]
    fn i8(&mut self) -> Result<i8, Refusal> {
        self.take().map(i8::from_be_bytes)
    }

    #[inline]
    fn u32(&mut self) -> Result<u32, Refusal> {
        self.take().map(u32::from_be_bytes)
    }

    #[inline]
    fn i32(&mut self) -> Result<i32, Refusal> {
        self.take().map(i32::from_be_bytes)
    }

    #[inline]
    fn u64(&mut self) -> Result<u64, Refusal> {
        self.take().map(u64::from_be_bytes)
    }

    #[inline]
    fn timestamp(&mut self) -> Result<Timestamp, Refusal> {
        Ok(Timestamp { seconds: self.u64()?, nsec: self.u32()? })
    }

    #[inline]
    fn data(&mut self) -> Result<&'a [u8], Refusal> {
        let len = self.u32()? as usize;
        let Some((data, rest)) = self.rest.split_at_checked(len) else {
            return refuse(refusals::TRUNCATED, self.place());
        };
        self.rest = rest;
        Ok(data)
    }

    #[inline]
    fn text(&mut self) -> Result<&'a str, Refusal> {
        let bytes = self.data()?;
        let end = well_formed_end(bytes);
        if end != bytes.len() {
            return refuse(refusals::MALFORMED_TEXT, self.place() - bytes.len() + end);
        }
        // SAFETY: the bytes are well-formed.
        Ok(unsafe { std::str::from_utf8_unchecked(bytes) })
    }

    #[inline]
    fn attributes(&mut self) -> Result<Attributes, Refusal> {
        Ok(Attributes {
            inode: self.u64()?,
            nlink: self.u64()?,
            mode: self.u32()?,
            uid: self.u32()?,
            gid: self.u32()?,
            rdev: self.u64()?,
            size: self.u64()?,
            blocks: self.u64()?,
            atime: self.timestamp()?,
            mtime: self.timestamp()?,
            ctime: self.timestamp()?,
        })
    }

    #[inline]
    fn statistics(&mut self) -> Result<Statistics, Refusal> {
        Ok(Statistics {
            bsize: self.u64()?,
            frsize: self.u64()?,
            blocks: self.u64()?,
            bfree: self.u64()?,
            bavail: self.u64()?,
            files: self.u64()?,
            ffree: self.u64()?,
            namemax: self.u64()?,
        })
    }

    /// The data of a read reply, of the length that the result claims.
    #[inline]
    fn data_of(&mut self, result: i32) -> Result<&'a [u8], Refusal> {
        let data = self.data()?;
        if data.len() != result as usize {
            return refuse(refusals::DATA_LENGTH_MISMATCH, RESULT_PLACE);
        }
        Ok(data)
    }

    /// The names, all of them met and checked.
    #[inline]
    fn names(&mut self) -> Result<Names<'a>, Refusal> {
        let left = self.u32()?;
        let rest = self.rest;
        for _ in 0..left {
            self.text()?;
        }
        Ok(Names { rest, left })
    }
}

/// The names of a reply that was read. They were checked and are not checked again.
pub struct Names<'a> {
    rest: &'a [u8],
    left: u32,
}

impl<'a> Iterator for Names<'a> {
    type Item = &'a str;

    #[inline]
    fn next(&mut self) -> Option<&'a str> {
        self.left = self.left.checked_sub(1)?;
        let (len, rest) = self.rest.split_first_chunk()?;
        let (name, rest) = rest.split_at_checked(u32::from_be_bytes(*len) as usize)?;
        self.rest = rest;
        // SAFETY: only the reader makes an iterator, and it checked each name.
        Some(unsafe { std::str::from_utf8_unchecked(name) })
    }
}

#[inline(always)]
pub fn read_request(message: &[u8]) -> Result<Received<Request<'_>>, Refusal> {
    let mut r = Reader::new(message)?;
    let id = r.u32()?;
    let type_number = r.u8()?;
    let body = request(type_number, &mut r)?;
    Ok(Received { id, known: r.place(), body })
}

#[inline(always)]
fn request<'a>(type_number: u8, r: &mut Reader<'a>) -> Result<Request<'a>, Refusal> {
    Ok(match type_number {
        types::ACCESS => Request::Access { path: r.text()?, mode: r.i8()? },
        types::GETATTR => Request::Getattr { path: r.text()? },
        types::READLINK => Request::Readlink { path: r.text()? },
        types::SYMLINK => Request::Symlink { target: r.text()?, linkpath: r.text()? },
        types::LINK => Request::Link { old_path: r.text()?, new_path: r.text()? },
        types::RENAME => Request::Rename { old_path: r.text()?, new_path: r.text()?, flags: r.u8()? },
        types::CHMOD => Request::Chmod { path: r.text()?, mode: r.u32()? },
        types::CHOWN => Request::Chown { path: r.text()?, uid: r.u32()?, gid: r.u32()? },
        types::TRUNCATE => Request::Truncate { path: r.text()?, size: r.u64()?, handle: r.u64()? },
        types::FSYNC => Request::Fsync { path: r.text()?, is_datasync: r.u8()? != 0, handle: r.u64()? },
        types::OPEN => Request::Open { path: r.text()?, flags: r.i32()? },
        types::MKNOD => Request::Mknod { path: r.text()?, mode: r.u32()?, dev: r.u64()? },
        types::CREATE => Request::Create { path: r.text()?, mode: r.u32()? },
        types::RELEASE => Request::Release { path: r.text()?, handle: r.u64()? },
        types::UNLINK => Request::Unlink { path: r.text()? },
        types::READ => Request::Read { path: r.text()?, buffer_size: r.u32()?, offset: r.u64()?, handle: r.u64()? },
        types::WRITE => Request::Write { path: r.text()?, data: r.data()?, offset: r.u64()?, handle: r.u64()? },
        types::MKDIR => Request::Mkdir { path: r.text()?, mode: r.u32()? },
        types::READDIR => Request::Readdir { path: r.text()? },
        types::RMDIR => Request::Rmdir { path: r.text()? },
        types::STATFS => Request::Statfs { path: r.text()? },
        types::UTIMENS => {
            Request::Utimens { path: r.text()?, atime: r.timestamp()?, mtime: r.timestamp()?, handle: r.u64()? }
        }
        types::GETCREDS => Request::Getcreds,
        type_number => Request::Unknown { type_number },
    })
}

#[inline(always)]
pub fn read_reply(message: &[u8]) -> Result<Received<Reply<'_, Names<'_>>>, Refusal> {
    let mut r = Reader::new(message)?;
    let id = r.u32()?;
    let type_number = r.u8()?;
    let body = match type_number {
        types::UNKNOWN_RESPONSE => Reply::UnknownResponse,
        types::GETCREDS_REPLY => Reply::Credentials { creds: r.text()? },
        types::ACCESS_REPLY..=types::UTIMENS_REPLY => match r.i32()? {
            code @ ..0 => Reply::Failure { type_number, code },
            result => Reply::Success { result, success: success(type_number, result, &mut r)? },
        },
        _ => return refuse(refusals::UNEXPECTED_TYPE, TYPE_PLACE),
    };
    Ok(Received { id, known: r.place(), body })
}

#[inline(always)]
fn success<'a>(type_number: u8, result: i32, r: &mut Reader<'a>) -> Result<Success<'a, Names<'a>>, Refusal> {
    Ok(match type_number {
        types::ACCESS_REPLY => Success::Access,
        types::GETATTR_REPLY => Success::Getattr(r.attributes()?),
        types::READLINK_REPLY => Success::Readlink { resolved: r.text()? },
        types::SYMLINK_REPLY => Success::Symlink,
        types::LINK_REPLY => Success::Link,
        types::RENAME_REPLY => Success::Rename,
        types::CHMOD_REPLY => Success::Chmod,
        types::CHOWN_REPLY => Success::Chown,
        types::TRUNCATE_REPLY => Success::Truncate,
        types::FSYNC_REPLY => Success::Fsync,
        types::OPEN_REPLY => Success::Open { handle: r.u64()? },
        types::MKNOD_REPLY => Success::Mknod,
        types::CREATE_REPLY => Success::Create { handle: r.u64()? },
        types::RELEASE_REPLY => Success::Release,
        types::UNLINK_REPLY => Success::Unlink,
        types::READ_REPLY => Success::Read { data: r.data_of(result)? },
        types::WRITE_REPLY => Success::Write,
        types::MKDIR_REPLY => Success::Mkdir,
        types::READDIR_REPLY => Success::Readdir(r.names()?),
        types::RMDIR_REPLY => Success::Rmdir,
        types::STATFS_REPLY => Success::Statfs(r.statistics()?),
        types::UTIMENS_REPLY => Success::Utimens,
        _ => return refuse(refusals::UNEXPECTED_TYPE, TYPE_PLACE),
    })
}

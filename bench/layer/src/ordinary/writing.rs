use super::{refuse, HEADER_SIZE};
use crate::common::well_formed_end;
use tushalets::numbers::{refusals, types};
use tushalets::{Attributes, NameRun, Refusal, Reply, Request, Statistics, Success, Timestamp, LONGEST};

/// Bytes of numbers, of a length or a count, of the result, and of the structures.
const U8: usize = 1;
const U32: usize = 4;
const U64: usize = 8;
const LENGTH_SIZE: usize = 4;
const RESULT_SIZE: usize = 4;
const TIMESTAMP_SIZE: usize = 12;
const ATTRIBUTES_SIZE: usize = 88;
const STATISTICS_SIZE: usize = 64;

/// The part of the buffer that is still to be stored. All checks are done when it is made.
struct Writer<'a> {
    rest: &'a mut [u8],
    size: usize,
}

impl<'a> Writer<'a> {
    /// The checks of size and room, then the header.
    #[inline]
    fn start(id: u32, type_number: u8, behind_header: usize, out: &'a mut [u8]) -> Result<Self, Refusal> {
        let size = HEADER_SIZE + behind_header;
        if size > LONGEST {
            return refuse(refusals::OVERSIZE, 0);
        }
        let Some(rest) = out.get_mut(..size) else {
            return refuse(refusals::BUFFER_TOO_SMALL, 0);
        };
        Ok(Writer { rest, size }.u32(id).u8(type_number))
    }

    #[inline]
    fn put(self, bytes: &[u8]) -> Self {
        let (here, rest) = self.rest.split_at_mut(bytes.len());
        here.copy_from_slice(bytes);
        Writer { rest, size: self.size }
    }

    #[inline]
    fn u8(self, x: u8) -> Self {
        self.put(&x.to_be_bytes())
    }

    #[inline]
    fn u32(self, x: u32) -> Self {
        self.put(&x.to_be_bytes())
    }

    #[inline]
    fn u64(self, x: u64) -> Self {
        self.put(&x.to_be_bytes())
    }

    #[inline]
    fn timestamp(self, time: Timestamp) -> Self {
        self.u64(time.seconds).u32(time.nsec)
    }

    #[inline]
    fn run(self, bytes: &[u8]) -> Self {
        self.u32(bytes.len() as u32).put(bytes)
    }

    #[inline]
    fn attributes(self, a: &Attributes) -> Self {
        let numbers = self.u64(a.inode).u64(a.nlink).u32(a.mode).u32(a.uid).u32(a.gid);
        let numbers = numbers.u64(a.rdev).u64(a.size).u64(a.blocks);
        numbers.timestamp(a.atime).timestamp(a.mtime).timestamp(a.ctime)
    }

    #[inline]
    fn statistics(self, s: &Statistics) -> Self {
        let numbers = self.u64(s.bsize).u64(s.frsize).u64(s.blocks).u64(s.bfree);
        numbers.u64(s.bavail).u64(s.files).u64(s.ffree).u64(s.namemax)
    }

    #[inline]
    fn finish(self) -> usize {
        self.size
    }
}

#[inline]
fn check_text(text: &[u8]) -> Result<(), Refusal> {
    if well_formed_end(text) != text.len() {
        return refuse(refusals::MALFORMED_TEXT, 0);
    }
    Ok(())
}

/// A request that begins with a text, and has so many bytes behind it.
#[inline]
fn one_text<'a>(id: u32, type_number: u8, text: &str, rest: usize, out: &'a mut [u8]) -> Result<Writer<'a>, Refusal> {
    check_text(text.as_bytes())?;
    let w = Writer::start(id, type_number, LENGTH_SIZE + text.len() + rest, out)?;
    Ok(w.run(text.as_bytes()))
}

/// A request that begins with two texts.
#[inline]
fn two_texts<'a>(
    id: u32,
    type_number: u8,
    texts: [&str; 2],
    numbers: usize,
    out: &'a mut [u8],
) -> Result<Writer<'a>, Refusal> {
    let [first, second] = texts.map(str::as_bytes);
    check_text(first)?;
    check_text(second)?;
    let w = Writer::start(id, type_number, 2 * LENGTH_SIZE + first.len() + second.len() + numbers, out)?;
    Ok(w.run(first).run(second))
}

#[inline(always)]
pub fn write_request(id: u32, request: &Request<'_>, out: &mut [u8]) -> Result<usize, Refusal> {
    let t = request.type_number();
    let written = match *request {
        Request::Getattr { path }
        | Request::Readlink { path }
        | Request::Unlink { path }
        | Request::Readdir { path }
        | Request::Rmdir { path }
        | Request::Statfs { path } => one_text(id, t, path, 0, out)?,
        Request::Access { path, mode } => one_text(id, t, path, U8, out)?.u8(mode as u8),
        Request::Symlink { target, linkpath } => two_texts(id, t, [target, linkpath], 0, out)?,
        Request::Link { old_path, new_path } => two_texts(id, t, [old_path, new_path], 0, out)?,
        Request::Rename { old_path, new_path, flags } => two_texts(id, t, [old_path, new_path], U8, out)?.u8(flags),
        Request::Chmod { path, mode } | Request::Create { path, mode } | Request::Mkdir { path, mode } => {
            one_text(id, t, path, U32, out)?.u32(mode)
        }
        Request::Chown { path, uid, gid } => one_text(id, t, path, 2 * U32, out)?.u32(uid).u32(gid),
        Request::Truncate { path, size, handle } => one_text(id, t, path, 2 * U64, out)?.u64(size).u64(handle),
        Request::Fsync { path, is_datasync, handle } => {
            one_text(id, t, path, U8 + U64, out)?.u8(is_datasync as u8).u64(handle)
        }
        Request::Open { path, flags } => one_text(id, t, path, U32, out)?.u32(flags as u32),
        Request::Mknod { path, mode, dev } => one_text(id, t, path, U32 + U64, out)?.u32(mode).u64(dev),
        Request::Release { path, handle } => one_text(id, t, path, U64, out)?.u64(handle),
        Request::Read { path, buffer_size, offset, handle } => {
            one_text(id, t, path, U32 + 2 * U64, out)?.u32(buffer_size).u64(offset).u64(handle)
        }
        Request::Write { path, data, offset, handle } => {
            one_text(id, t, path, LENGTH_SIZE + data.len() + 2 * U64, out)?.run(data).u64(offset).u64(handle)
        }
        Request::Utimens { path, atime, mtime, handle } => {
            let w = one_text(id, t, path, 2 * TIMESTAMP_SIZE + U64, out)?;
            w.timestamp(atime).timestamp(mtime).u64(handle)
        }
        Request::Unknown { type_number: types::ACCESS..=types::GETCREDS } => {
            return refuse(refusals::UNEXPECTED_TYPE, 0)
        }
        Request::Getcreds | Request::Unknown { .. } => Writer::start(id, t, 0, out)?,
    };
    Ok(written.finish())
}

#[inline(always)]
pub fn write_reply(id: u32, reply: &Reply<'_, NameRun<'_>>, out: &mut [u8]) -> Result<usize, Refusal> {
    match *reply {
        Reply::Success { result, ref success } => {
            if result < 0 {
                return refuse(refusals::RESULT_SIGN, 0);
            }
            write_success(id, result, success, out)
        }
        Reply::Failure { type_number, code } => {
            if !(types::ACCESS_REPLY..=types::UTIMENS_REPLY).contains(&type_number) {
                return refuse(refusals::UNEXPECTED_TYPE, 0);
            }
            if code >= 0 {
                return refuse(refusals::RESULT_SIGN, 0);
            }
            Ok(Writer::start(id, type_number, RESULT_SIZE, out)?.u32(code as u32).finish())
        }
        Reply::Credentials { creds } => one_text(id, types::GETCREDS_REPLY, creds, 0, out).map(Writer::finish),
        Reply::UnknownResponse => Writer::start(id, types::UNKNOWN_RESPONSE, 0, out).map(Writer::finish),
    }
}

#[inline(always)]
fn write_success(id: u32, result: i32, success: &Success<'_, NameRun<'_>>, out: &mut [u8]) -> Result<usize, Refusal> {
    let start = |fields: usize, out| {
        let w = Writer::start(id, success.type_number(), RESULT_SIZE + fields, out)?;
        Ok(w.u32(result as u32))
    };
    let written = match *success {
        Success::Getattr(ref attributes) => start(ATTRIBUTES_SIZE, out)?.attributes(attributes),
        Success::Statfs(ref statistics) => start(STATISTICS_SIZE, out)?.statistics(statistics),
        Success::Open { handle } | Success::Create { handle } => start(U64, out)?.u64(handle),
        Success::Readlink { resolved } => {
            check_text(resolved.as_bytes())?;
            start(LENGTH_SIZE + resolved.len(), out)?.run(resolved.as_bytes())
        }
        Success::Read { data } => {
            if data.len() != result as usize {
                return refuse(refusals::DATA_LENGTH_MISMATCH, 0);
            }
            start(LENGTH_SIZE + data.len(), out)?.run(data)
        }
        Success::Readdir(run) => {
            check_names(run)?;
            let fields = LENGTH_SIZE + LENGTH_SIZE * run.lengths.len() + run.names.len();
            let w = start(fields, out)?.u32(run.lengths.len() as u32);
            names_of(run).fold(w, Writer::run)
        }
        _ => start(0, out)?,
    };
    Ok(written.finish())
}

/// The lengths sum to the run, and each name is text.
fn check_names(run: NameRun<'_>) -> Result<(), Refusal> {
    let sum: u128 = run.lengths.iter().map(|len| u128::from(*len)).sum();
    if sum != run.names.len() as u128 {
        return refuse(refusals::LENGTHS_MISMATCH, 0);
    }
    names_of(run).try_for_each(check_text)
}

/// The names of a run whose lengths sum to it.
fn names_of(run: NameRun<'_>) -> impl Iterator<Item = &[u8]> {
    let mut rest = run.names;
    run.lengths.iter().map(move |len| {
        let (name, behind) = rest.split_at(*len as usize);
        rest = behind;
        name
    })
}

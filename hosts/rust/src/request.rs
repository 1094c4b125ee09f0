use crate::numbers::types;
use crate::raw::{self, Accepted};
use crate::{cells, written, Received, Refusal, Timestamp};

/// A request. Its texts and data are parts of the message that was read, or what is to be written.
#[derive(Clone, Copy, Debug, PartialEq, Eq, Hash)]
#[allow(missing_docs)] // The fields have the names of document 01's table.
pub enum Request<'a> {
    /// May the user do this with the file? `mode` is a sum of 4 read, 2 write and 1 execute, or 0: does the file exist?
    Access { path: &'a str, mode: i8 },
    /// The attributes of a file.
    Getattr { path: &'a str },
    /// What a symbolic link points to.
    Readlink { path: &'a str },
    /// Make `linkpath` a symbolic link to `target`.
    Symlink { target: &'a str, linkpath: &'a str },
    /// Make `new_path` a hard link to the file at `old_path`.
    Link { old_path: &'a str, new_path: &'a str },
    /// Give the file at `old_path` the path `new_path`. `flags`: 1 replaces no file, 2 exchanges the two.
    Rename { old_path: &'a str, new_path: &'a str, flags: u8 },
    /// Change the permissions of a file.
    Chmod { path: &'a str, mode: u32 },
    /// Change user and group of a file.
    Chown { path: &'a str, uid: u32, gid: u32 },
    /// Change the size of a file.
    Truncate { path: &'a str, size: u64, handle: u64 },
    /// Bring what was written to the disk; with `is_datasync` the data alone.
    Fsync { path: &'a str, is_datasync: bool, handle: u64 },
    /// Open a file. `flags` are those of open(2).
    Open { path: &'a str, flags: i32 },
    /// Make a file, a device or a pipe. `mode` has its type and permissions.
    Mknod { path: &'a str, mode: u32, dev: u64 },
    /// Make a file and open it.
    Create { path: &'a str, mode: u32 },
    /// Close a handle.
    Release { path: &'a str, handle: u64 },
    /// Remove a file.
    Unlink { path: &'a str },
    /// Read at most `buffer_size` bytes from `offset` on.
    Read { path: &'a str, buffer_size: u32, offset: u64, handle: u64 },
    /// Write `data` from `offset` on.
    Write { path: &'a str, data: &'a [u8], offset: u64, handle: u64 },
    /// Make a directory.
    Mkdir { path: &'a str, mode: u32 },
    /// The names in a directory.
    Readdir { path: &'a str },
    /// Remove a directory.
    Rmdir { path: &'a str },
    /// The statistics of the file system.
    Statfs { path: &'a str },
    /// Change the times of the last access and the last modification.
    Utimens { path: &'a str, atime: Timestamp, mtime: Timestamp, handle: u64 },
    /// The credentials to log in with.
    Getcreds,
    /// A request of a type that no method has.
    Unknown { type_number: u8 },
}

impl Request<'_> {
    /// The type of this request.
    #[inline]
    pub const fn type_number(&self) -> u8 {
        match *self {
            Request::Access { .. } => types::ACCESS,
            Request::Getattr { .. } => types::GETATTR,
            Request::Readlink { .. } => types::READLINK,
            Request::Symlink { .. } => types::SYMLINK,
            Request::Link { .. } => types::LINK,
            Request::Rename { .. } => types::RENAME,
            Request::Chmod { .. } => types::CHMOD,
            Request::Chown { .. } => types::CHOWN,
            Request::Truncate { .. } => types::TRUNCATE,
            Request::Fsync { .. } => types::FSYNC,
            Request::Open { .. } => types::OPEN,
            Request::Mknod { .. } => types::MKNOD,
            Request::Create { .. } => types::CREATE,
            Request::Release { .. } => types::RELEASE,
            Request::Unlink { .. } => types::UNLINK,
            Request::Read { .. } => types::READ,
            Request::Write { .. } => types::WRITE,
            Request::Mkdir { .. } => types::MKDIR,
            Request::Readdir { .. } => types::READDIR,
            Request::Rmdir { .. } => types::RMDIR,
            Request::Statfs { .. } => types::STATFS,
            Request::Utimens { .. } => types::UTIMENS,
            Request::Getcreds => types::GETCREDS,
            Request::Unknown { type_number } => type_number,
        }
    }

    /// The type of the reply to this request; to an unknown one that of the unknown response.
    #[inline]
    pub const fn reply_type_number(&self) -> u8 {
        match *self {
            Request::Unknown { .. } => types::UNKNOWN_RESPONSE,
            _ => self.type_number() + types::REPLY,
        }
    }
}

/// Reads a request. No message needs a check beforehand.
///
/// ```
/// use tushalets::{read_request, Request};
///
/// let message = [0, 0, 0, 7, 0x01, 0, 0, 0, 2, b'/', b'a', 4];
/// let received = read_request(&message)?;
/// assert_eq!((received.id, received.known), (7, 12));
/// assert_eq!(received.body, Request::Access { path: "/a", mode: 4 });
/// # Ok::<(), tushalets::Refusal>(())
/// ```
#[inline]
pub fn read_request(message: &[u8]) -> Result<Received<Request<'_>>, Refusal> {
    let accepted = Accepted::request(message)?;
    Ok(Received { id: accepted.id(), known: accepted.known(), body: body(&accepted) })
}

/// The request that the cells show.
#[inline]
fn body<'a>(a: &Accepted<'a>) -> Request<'a> {
    match a.type_number() {
        types::ACCESS => Request::Access { path: a.text(0), mode: a.number(2) as i8 },
        types::GETATTR => Request::Getattr { path: a.text(0) },
        types::READLINK => Request::Readlink { path: a.text(0) },
        types::SYMLINK => Request::Symlink { target: a.text(0), linkpath: a.text(2) },
        types::LINK => Request::Link { old_path: a.text(0), new_path: a.text(2) },
        types::RENAME => Request::Rename { old_path: a.text(0), new_path: a.text(2), flags: a.number(4) as u8 },
        types::CHMOD => Request::Chmod { path: a.text(0), mode: a.number(2) as u32 },
        types::CHOWN => Request::Chown { path: a.text(0), uid: a.number(2) as u32, gid: a.number(3) as u32 },
        types::TRUNCATE => Request::Truncate { path: a.text(0), size: a.number(2), handle: a.number(3) },
        types::FSYNC => Request::Fsync { path: a.text(0), is_datasync: a.number(2) != 0, handle: a.number(3) },
        types::OPEN => Request::Open { path: a.text(0), flags: a.number(2) as i32 },
        types::MKNOD => Request::Mknod { path: a.text(0), mode: a.number(2) as u32, dev: a.number(3) },
        types::CREATE => Request::Create { path: a.text(0), mode: a.number(2) as u32 },
        types::RELEASE => Request::Release { path: a.text(0), handle: a.number(2) },
        types::UNLINK => Request::Unlink { path: a.text(0) },
        types::READ => {
            Request::Read { path: a.text(0), buffer_size: a.number(2) as u32, offset: a.number(3), handle: a.number(4) }
        }
        types::WRITE => Request::Write { path: a.text(0), data: a.data(2), offset: a.number(4), handle: a.number(5) },
        types::MKDIR => Request::Mkdir { path: a.text(0), mode: a.number(2) as u32 },
        types::READDIR => Request::Readdir { path: a.text(0) },
        types::RMDIR => Request::Rmdir { path: a.text(0) },
        types::STATFS => Request::Statfs { path: a.text(0) },
        types::UTIMENS => Request::Utimens {
            path: a.text(0),
            atime: cells::timestamp(a, 2),
            mtime: cells::timestamp(a, 4),
            handle: a.number(6),
        },
        types::GETCREDS => Request::Getcreds,
        type_number => Request::Unknown { type_number },
    }
}

/// Stores a request at the start of `out` and answers its length. A refusal changes no byte of `out`, a finished write
/// only the bytes that it reports.
///
/// ```
/// use tushalets::{numbers::refusals, write_request, Request};
///
/// let mut out = [0xee; 16];
/// let len = write_request(7, &Request::Access { path: "/a", mode: 4 }, &mut out)?;
/// assert_eq!(out[..len], [0, 0, 0, 7, 0x01, 0, 0, 0, 2, b'/', b'a', 4]);
///
/// let refusal = write_request(7, &Request::Unlink { path: "/long/name" }, &mut out[..12]).unwrap_err();
/// assert_eq!(refusal.number, refusals::BUFFER_TOO_SMALL);
/// # Ok::<(), tushalets::Refusal>(())
/// ```
#[inline]
pub fn write_request(id: u32, request: &Request<'_>, out: &mut [u8]) -> Result<usize, Refusal> {
    let told = match *request {
        Request::Unknown { type_number } => raw::write_unknown_request(id, type_number, out),
        _ => {
            let given = Given::of(request);
            raw::write_request(id, request.type_number(), &given.numbers, given.first, given.second, out)
        }
    };
    written(told)
}

/// The fields of a known request as the exported writer takes them.
struct Given<'a> {
    numbers: [u64; 5],
    first: &'a [u8],
    second: &'a [u8],
}

impl<'a> Given<'a> {
    #[inline]
    fn new(first: &'a [u8], second: &'a [u8], numbers: [u64; 5]) -> Self {
        Given { numbers, first, second }
    }

    #[inline]
    fn text(text: &'a str, numbers: [u64; 5]) -> Self {
        Given::new(text.as_bytes(), &[], numbers)
    }

    #[inline]
    fn texts(first: &'a str, second: &'a str, number: u64) -> Self {
        Given::new(first.as_bytes(), second.as_bytes(), [number, 0, 0, 0, 0])
    }

    /// A signed number is given by the low bits of its word, so the sign's copies above them do not matter.
    #[inline]
    fn of(request: &Request<'a>) -> Self {
        match *request {
            Request::Access { path, mode } => Given::text(path, [mode as u64, 0, 0, 0, 0]),
            Request::Getattr { path }
            | Request::Readlink { path }
            | Request::Unlink { path }
            | Request::Readdir { path }
            | Request::Rmdir { path }
            | Request::Statfs { path } => Given::text(path, [0; 5]),
            Request::Symlink { target, linkpath } => Given::texts(target, linkpath, 0),
            Request::Link { old_path, new_path } => Given::texts(old_path, new_path, 0),
            Request::Rename { old_path, new_path, flags } => Given::texts(old_path, new_path, flags as u64),
            Request::Chmod { path, mode } | Request::Create { path, mode } | Request::Mkdir { path, mode } => {
                Given::text(path, [mode as u64, 0, 0, 0, 0])
            }
            Request::Chown { path, uid, gid } => Given::text(path, [uid as u64, gid as u64, 0, 0, 0]),
            Request::Truncate { path, size, handle } => Given::text(path, [size, handle, 0, 0, 0]),
            Request::Fsync { path, is_datasync, handle } => Given::text(path, [is_datasync as u64, handle, 0, 0, 0]),
            Request::Open { path, flags } => Given::text(path, [flags as u64, 0, 0, 0, 0]),
            Request::Mknod { path, mode, dev } => Given::text(path, [mode as u64, dev, 0, 0, 0]),
            Request::Release { path, handle } => Given::text(path, [handle, 0, 0, 0, 0]),
            Request::Read { path, buffer_size, offset, handle } => {
                Given::text(path, [buffer_size as u64, offset, handle, 0, 0])
            }
            Request::Write { path, data, offset, handle } => {
                Given::new(path.as_bytes(), data, [offset, handle, 0, 0, 0])
            }
            Request::Utimens { path, atime, mtime, handle } => {
                Given::text(path, [atime.seconds, atime.nsec as u64, mtime.seconds, mtime.nsec as u64, handle])
            }
            Request::Getcreds | Request::Unknown { .. } => Given::new(&[], &[], [0; 5]),
        }
    }
}

use crate::numbers::{shapes, types};
use crate::raw::{self, Accepted};
use crate::{cells, written, Attributes, NameRun, Names, Received, Refusal, Statistics};

/// A success of each method that has a result. `N` is how the names of a readdir reply are given: [`Names`] where it
/// was read, [`NameRun`] where it is to be written.
#[derive(Clone, Copy, Debug, PartialEq, Eq)]
#[allow(missing_docs)] // The fields have the names of document 01's table.
pub enum Success<'a, N = Names<'a>> {
    /// The user may do so.
    Access,
    /// The attributes of the file.
    Getattr(Attributes),
    /// What the symbolic link points to.
    Readlink { resolved: &'a str },
    /// The symbolic link is made.
    Symlink,
    /// The hard link is made.
    Link,
    /// The file has its new path.
    Rename,
    /// The mode is changed.
    Chmod,
    /// User and group are changed.
    Chown,
    /// The file has its new size.
    Truncate,
    /// What was written is on the disk.
    Fsync,
    /// The file is open under this handle.
    Open { handle: u64 },
    /// The file is made.
    Mknod,
    /// The file is made, and open under this handle.
    Create { handle: u64 },
    /// The handle is closed.
    Release,
    /// The file is removed.
    Unlink,
    /// What was read. The result is its length.
    Read { data: &'a [u8] },
    /// The data is written. The result says how much of it.
    Write,
    /// The directory is made.
    Mkdir,
    /// The names in the directory.
    Readdir(N),
    /// The directory is removed.
    Rmdir,
    /// The statistics of the file system.
    Statfs(Statistics),
    /// The times are changed.
    Utimens,
}

/// A reply. Its texts, data and names are parts of the message that was read, or what is to be written.
#[derive(Clone, Copy, Debug, PartialEq, Eq)]
pub enum Reply<'a, N = Names<'a>> {
    /// A result of 0 or more, and what follows it. Of a read the result is the length of the data.
    Success {
        /// The result.
        result: i32,
        /// The method and its fields.
        success: Success<'a, N>,
    },
    /// A negative result.
    Failure {
        /// The type of the reply, that of a method but getcreds.
        type_number: u8,
        /// The result, an error code.
        code: i32,
    },
    /// The reply of getcreds, which has no result.
    Credentials {
        /// The credentials.
        creds: &'a str,
    },
    /// The reply to a request of a type that no method has.
    UnknownResponse,
}

impl<'a, N> Success<'a, N> {
    /// The type of this reply.
    #[inline]
    pub const fn type_number(&self) -> u8 {
        match *self {
            Success::Access => types::ACCESS_REPLY,
            Success::Getattr(_) => types::GETATTR_REPLY,
            Success::Readlink { .. } => types::READLINK_REPLY,
            Success::Symlink => types::SYMLINK_REPLY,
            Success::Link => types::LINK_REPLY,
            Success::Rename => types::RENAME_REPLY,
            Success::Chmod => types::CHMOD_REPLY,
            Success::Chown => types::CHOWN_REPLY,
            Success::Truncate => types::TRUNCATE_REPLY,
            Success::Fsync => types::FSYNC_REPLY,
            Success::Open { .. } => types::OPEN_REPLY,
            Success::Mknod => types::MKNOD_REPLY,
            Success::Create { .. } => types::CREATE_REPLY,
            Success::Release => types::RELEASE_REPLY,
            Success::Unlink => types::UNLINK_REPLY,
            Success::Read { .. } => types::READ_REPLY,
            Success::Write => types::WRITE_REPLY,
            Success::Mkdir => types::MKDIR_REPLY,
            Success::Readdir(_) => types::READDIR_REPLY,
            Success::Rmdir => types::RMDIR_REPLY,
            Success::Statfs(_) => types::STATFS_REPLY,
            Success::Utimens => types::UTIMENS_REPLY,
        }
    }

    /// The same success with its names in another form: what was read, made ready to be written.
    #[inline]
    pub fn map_names<M>(self, form: impl FnOnce(N) -> M) -> Success<'a, M> {
        match self {
            Success::Access => Success::Access,
            Success::Getattr(attributes) => Success::Getattr(attributes),
            Success::Readlink { resolved } => Success::Readlink { resolved },
            Success::Symlink => Success::Symlink,
            Success::Link => Success::Link,
            Success::Rename => Success::Rename,
            Success::Chmod => Success::Chmod,
            Success::Chown => Success::Chown,
            Success::Truncate => Success::Truncate,
            Success::Fsync => Success::Fsync,
            Success::Open { handle } => Success::Open { handle },
            Success::Mknod => Success::Mknod,
            Success::Create { handle } => Success::Create { handle },
            Success::Release => Success::Release,
            Success::Unlink => Success::Unlink,
            Success::Read { data } => Success::Read { data },
            Success::Write => Success::Write,
            Success::Mkdir => Success::Mkdir,
            Success::Readdir(names) => Success::Readdir(form(names)),
            Success::Rmdir => Success::Rmdir,
            Success::Statfs(statistics) => Success::Statfs(statistics),
            Success::Utimens => Success::Utimens,
        }
    }
}

impl<'a, N> Reply<'a, N> {
    /// The same reply with its names in another form.
    ///
    /// ```
    /// use tushalets::{read_reply, write_reply, NameRun};
    ///
    /// let reply = [0, 0, 0, 2, 0x93, 0, 0, 0, 0, 0, 0, 0, 2, 0, 0, 0, 1, b'a', 0, 0, 0, 2, b'b', b'c'];
    /// let (mut names, mut lengths) = (Vec::new(), Vec::new());
    /// let received = read_reply(&reply)?;
    /// let again = received.body.map_names(|read| {
    ///     for name in read {
    ///         names.extend(name.as_bytes());
    ///         lengths.push(name.len() as u32);
    ///     }
    ///     NameRun { names: &names, lengths: &lengths }
    /// });
    /// let mut out = [0; 64];
    /// let len = write_reply(received.id, &again, &mut out)?;
    /// assert_eq!(out[..len], reply);
    /// # Ok::<(), tushalets::Refusal>(())
    /// ```
    #[inline]
    pub fn map_names<M>(self, form: impl FnOnce(N) -> M) -> Reply<'a, M> {
        match self {
            Reply::Success { result, success } => Reply::Success { result, success: success.map_names(form) },
            Reply::Failure { type_number, code } => Reply::Failure { type_number, code },
            Reply::Credentials { creds } => Reply::Credentials { creds },
            Reply::UnknownResponse => Reply::UnknownResponse,
        }
    }
}

/// Reads a reply. No message needs a check beforehand.
///
/// ```
/// use tushalets::{read_reply, Reply, Success};
///
/// let failure = [0, 0, 0, 1, 0x82, 0xff, 0xff, 0xff, 0xfe];
/// assert_eq!(read_reply(&failure)?.body, Reply::Failure { type_number: 0x82, code: -2 });
///
/// let names = [0, 0, 0, 2, 0x93, 0, 0, 0, 0, 0, 0, 0, 2, 0, 0, 0, 1, b'a', 0, 0, 0, 2, b'b', b'c'];
/// let Reply::Success { success: Success::Readdir(names), .. } = read_reply(&names)?.body else { panic!() };
/// assert_eq!(names.len(), 2);
/// assert_eq!(names.collect::<Vec<&str>>(), ["a", "bc"]);
/// # Ok::<(), tushalets::Refusal>(())
/// ```
#[inline]
pub fn read_reply(message: &[u8]) -> Result<Received<Reply<'_>>, Refusal> {
    Accepted::reply(message).map(|accepted| received(&accepted))
}

/// The reply that a reader accepted.
#[inline]
pub(crate) fn received<'a>(accepted: &Accepted<'a>) -> Received<Reply<'a>> {
    Received { id: accepted.id(), known: accepted.known(), body: body(accepted) }
}

/// The reply that the cells show.
#[inline]
fn body<'a>(a: &Accepted<'a>) -> Reply<'a> {
    match (a.shape(), a.type_number()) {
        (shapes::UNKNOWN, _) => Reply::UnknownResponse,
        (shapes::FAILURE, type_number) => Reply::Failure { type_number, code: a.number(0) as i32 },
        (_, types::GETCREDS_REPLY) => Reply::Credentials { creds: a.text(0) },
        _ => Reply::Success { result: a.number(0) as i32, success: success(a) },
    }
}

/// The fields behind a result.
#[inline]
fn success<'a>(a: &Accepted<'a>) -> Success<'a> {
    match a.type_number() {
        types::ACCESS_REPLY => Success::Access,
        types::GETATTR_REPLY => Success::Getattr(cells::attributes(a, 1)),
        types::READLINK_REPLY => Success::Readlink { resolved: a.text(1) },
        types::SYMLINK_REPLY => Success::Symlink,
        types::LINK_REPLY => Success::Link,
        types::RENAME_REPLY => Success::Rename,
        types::CHMOD_REPLY => Success::Chmod,
        types::CHOWN_REPLY => Success::Chown,
        types::TRUNCATE_REPLY => Success::Truncate,
        types::FSYNC_REPLY => Success::Fsync,
        types::OPEN_REPLY => Success::Open { handle: a.number(1) },
        types::MKNOD_REPLY => Success::Mknod,
        types::CREATE_REPLY => Success::Create { handle: a.number(1) },
        types::RELEASE_REPLY => Success::Release,
        types::UNLINK_REPLY => Success::Unlink,
        types::READ_REPLY => Success::Read { data: a.data(1) },
        types::WRITE_REPLY => Success::Write,
        types::MKDIR_REPLY => Success::Mkdir,
        types::READDIR_REPLY => Success::Readdir(Names::new(a.names())),
        types::RMDIR_REPLY => Success::Rmdir,
        types::STATFS_REPLY => Success::Statfs(cells::statistics(a, 1)),
        types::UTIMENS_REPLY => Success::Utimens,
        _ => unreachable!("the reader shows a success of these types alone"),
    }
}

/// Stores a reply at the start of `out` and answers its length. A refusal changes no byte of `out`, a finished write
/// only the bytes that it reports.
///
/// ```
/// use tushalets::{numbers::refusals, write_reply, NameRun, Reply, Success};
///
/// let mut out = [0; 32];
/// let names = NameRun { names: b"abc", lengths: &[1, 2] };
/// let len = write_reply(2, &Reply::Success { result: 0, success: Success::Readdir(names) }, &mut out)?;
/// assert_eq!(out[9..len], [0, 0, 0, 2, 0, 0, 0, 1, b'a', 0, 0, 0, 2, b'b', b'c']);
///
/// // A read never claims another number of bytes than it carries.
/// let wrong = Reply::Success { result: 256, success: Success::Read { data: &[0; 112] } };
/// assert_eq!(write_reply(3, &wrong, &mut out).unwrap_err().number, refusals::DATA_LENGTH_MISMATCH);
/// # Ok::<(), tushalets::Refusal>(())
/// ```
#[inline]
pub fn write_reply(id: u32, reply: &Reply<'_, NameRun<'_>>, out: &mut [u8]) -> Result<usize, Refusal> {
    let told = match *reply {
        Reply::Success { result, ref success } => write_success(id, result, success, out),
        Reply::Failure { type_number, code } => raw::write_failure(id, type_number, code, out),
        Reply::Credentials { creds } => {
            raw::write_reply(id, types::GETCREDS_REPLY, 0, &cells::NO_NUMBERS, creds.as_bytes(), &[], out)
        }
        Reply::UnknownResponse => raw::write_unknown_response(id, out),
    };
    written(told)
}

/// Gives the fields behind a result to the exported writer: numbers, a text or data, lengths of names.
#[inline]
fn write_success(id: u32, result: i32, success: &Success<'_, NameRun<'_>>, out: &mut [u8]) -> raw::Written {
    let type_number = success.type_number();
    let mut write = |numbers: &[u64; 14], run: &[u8], lengths: &[u32]| {
        raw::write_reply(id, type_number, result, numbers, run, lengths, out)
    };
    match *success {
        Success::Getattr(ref attributes) => write(&cells::numbers_of_attributes(attributes), &[], &[]),
        Success::Readlink { resolved } => write(&cells::NO_NUMBERS, resolved.as_bytes(), &[]),
        Success::Open { handle } | Success::Create { handle } => write(&cells::one_number(handle), &[], &[]),
        Success::Read { data } => write(&cells::NO_NUMBERS, data, &[]),
        Success::Readdir(NameRun { names, lengths }) => write(&cells::NO_NUMBERS, names, lengths),
        Success::Statfs(ref statistics) => write(&cells::numbers_of_statistics(statistics), &[], &[]),
        Success::Access
        | Success::Symlink
        | Success::Link
        | Success::Rename
        | Success::Chmod
        | Success::Chown
        | Success::Truncate
        | Success::Fsync
        | Success::Mknod
        | Success::Release
        | Success::Unlink
        | Success::Write
        | Success::Mkdir
        | Success::Rmdir
        | Success::Utimens => write(&cells::NO_NUMBERS, &[], &[]),
    }
}

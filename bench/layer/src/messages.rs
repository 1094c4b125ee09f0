//! The messages that are timed, and one of each kind to compare answers with.
use tushalets::{Attributes, NameRun, Reply, Request, Statistics, Success, Timestamp, LONGEST};

pub const ID: u32 = 0x0102_0304;
const PATH: &str = "/jobs/2024/card-0001";
const OTHER_PATH: &str = "/jobs/grüße/ключ-€-𝄞";

/// The lengths of four names that `OTHER_PATH` is cut into, one of them empty.
const NAME_LENGTHS: [u32; 4] = [1, 0, 6, OTHER_PATH.len() as u32 - 7];

const HANDLE: u64 = 0x1112_1314_1516_1718;
const TIME: Timestamp = Timestamp { seconds: 1_700_000_000, nsec: 999_999_999 };

/// Bytes of header, result and count of a readdir reply, and of the length of each name.
const BEFORE_NAMES: usize = 13;
const LENGTH_SIZE: usize = 4;

/// Bytes of the header and of the length of a path, and a byte that no character begins with.
const BEFORE_PATH: usize = 9;
const NO_CHARACTER: u8 = 0x80;

pub const ACCESS: Request<'_> = Request::Access { path: PATH, mode: 4 };
pub const GETATTR: Request<'_> = Request::Getattr { path: PATH };
pub const RENAME: Request<'_> = Request::Rename { old_path: PATH, new_path: PATH, flags: 1 };
pub const READ: Request<'_> = Request::Read { path: PATH, buffer_size: 4096, offset: 0x2000, handle: HANDLE };

/// A write request.
pub const fn write(data: &[u8]) -> Request<'_> {
    Request::Write { path: PATH, data, offset: 0x2000, handle: HANDLE }
}

const ATTRIBUTES: Attributes = Attributes {
    inode: 0x2122_2324_2526_2728,
    nlink: 2,
    mode: 0o100_644,
    uid: 1000,
    gid: 100,
    rdev: 0x3132_3334_3536_3738,
    size: 4096,
    blocks: 8,
    atime: TIME,
    mtime: Timestamp { seconds: 1, nsec: 2 },
    ctime: Timestamp { seconds: u64::MAX, nsec: u32::MAX },
};

const STATISTICS: Statistics =
    Statistics { bsize: 1, frsize: 2, blocks: 3, bfree: 4, bavail: 5, files: 6, ffree: 7, namemax: 255 };

pub const GETATTR_REPLY: Reply<'_, NameRun<'_>> = Reply::Success { result: 0, success: Success::Getattr(ATTRIBUTES) };

/// A successful read.
pub fn read_reply(data: &[u8]) -> Reply<'_, NameRun<'_>> {
    Reply::Success { result: data.len() as i32, success: Success::Read { data } }
}

/// A getattr request with an ASCII path of `len` bytes. One of them, if it is named, begins no character.
pub fn long_path(len: usize, bad: Option<usize>) -> Vec<u8> {
    let mut message = request(&Request::Getattr { path: &"/a-path-of-letters".repeat(len)[..len] });
    if let Some(place) = bad {
        message[BEFORE_PATH + place] = NO_CHARACTER;
    }
    message
}

/// A readdir reply with as many names of `len` bytes as the longest message holds.
pub fn long_directory(len: usize) -> Vec<u8> {
    let count = (LONGEST - BEFORE_NAMES) / (LENGTH_SIZE + len);
    let names: Vec<u8> = (b'a'..=b'z').cycle().take(count * len).collect();
    let names = NameRun { names: &names, lengths: &vec![len as u32; count] };
    reply(&Reply::Success { result: 0, success: Success::Readdir(names) })
}

/// The bytes of a request.
pub fn request(request: &Request<'_>) -> Vec<u8> {
    written(|out| tushalets::write_request(ID, request, out))
}

/// The bytes of a reply.
pub fn reply(reply: &Reply<'_, NameRun<'_>>) -> Vec<u8> {
    written(|out| tushalets::write_reply(ID, reply, out))
}

fn written(write: impl Fn(&mut [u8]) -> Result<usize, tushalets::Refusal>) -> Vec<u8> {
    let mut out = vec![0; LONGEST];
    let len = write(&mut out).expect("these messages are written");
    out.truncate(len);
    out
}

/// A request of each method, and an unknown one.
pub fn requests() -> Vec<Request<'static>> {
    let (path, old_path, new_path, handle) = (OTHER_PATH, PATH, OTHER_PATH, HANDLE);
    vec![
        ACCESS,
        GETATTR,
        RENAME,
        READ,
        Request::Readlink { path },
        Request::Symlink { target: old_path, linkpath: new_path },
        Request::Link { old_path, new_path },
        Request::Chmod { path, mode: 0o644 },
        Request::Chown { path, uid: 1, gid: u32::MAX },
        Request::Truncate { path, size: 2, handle },
        Request::Fsync { path, is_datasync: true, handle },
        Request::Open { path, flags: -1 },
        Request::Mknod { path, mode: 0o644, dev: 5 },
        Request::Create { path, mode: 0o600 },
        Request::Release { path, handle },
        Request::Unlink { path },
        Request::Write { path, data: &[0x80; 7], offset: 6, handle },
        Request::Mkdir { path, mode: 0o755 },
        Request::Readdir { path },
        Request::Rmdir { path },
        Request::Statfs { path },
        Request::Utimens { path, atime: TIME, mtime: TIME, handle },
        Request::Getcreds,
        Request::Unknown { type_number: 0x42 },
    ]
}

/// A success of each method, and every other reply.
pub fn replies() -> Vec<Reply<'static, NameRun<'static>>> {
    let names = NameRun { names: OTHER_PATH.as_bytes(), lengths: &NAME_LENGTHS };
    let successes = [
        Success::Access,
        Success::Readlink { resolved: OTHER_PATH },
        Success::Symlink,
        Success::Link,
        Success::Rename,
        Success::Chmod,
        Success::Chown,
        Success::Truncate,
        Success::Fsync,
        Success::Open { handle: HANDLE },
        Success::Mknod,
        Success::Create { handle: HANDLE },
        Success::Release,
        Success::Unlink,
        Success::Write,
        Success::Mkdir,
        Success::Readdir(names),
        Success::Rmdir,
        Success::Statfs(STATISTICS),
        Success::Utimens,
    ];
    let mut replies: Vec<_> = successes.map(|success| Reply::Success { result: 0, success }).into();
    replies.extend([
        GETATTR_REPLY,
        read_reply(&[0x80; 7]),
        Reply::Failure { type_number: 0x82, code: -2 },
        Reply::Credentials { creds: OTHER_PATH },
        Reply::UnknownResponse,
    ]);
    replies
}

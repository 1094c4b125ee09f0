//! An answer in full: what it is, its fields, id and known length, and the bytes of its parts.

use super::{show_refusal, start_of};
use tushalets::{raw, read_reply, read_request};
use tushalets::{Attributes, Received, Reply, Request, Statistics, Success, Timestamp};

enum Value<'a> {
    Number(i128),
    Part(&'a [u8]),
}

type Field<'a> = (&'static str, Value<'a>);

/// What an answer is, and its fields in order.
type Shown<'a> = (&'static str, Vec<Field<'a>>);

impl<'a> From<&'a str> for Value<'a> {
    fn from(text: &'a str) -> Self {
        Value::Part(text.as_bytes())
    }
}

impl<'a> From<&'a [u8]> for Value<'a> {
    fn from(data: &'a [u8]) -> Self {
        Value::Part(data)
    }
}

macro_rules! numbers {
    ($($number:ty),*) => {
        $(impl From<$number> for Value<'_> {
            fn from(number: $number) -> Self {
                Value::Number(number.into())
            }
        })*
    };
}

numbers!(bool, u8, u32, u64, i8, i32);

/// Fields that have the names of the variables with their values.
macro_rules! fields {
    ($($name:ident),*) => {
        vec![$((stringify!($name), Value::from($name))),*]
    };
}

pub fn show_request(message: &[u8]) -> String {
    match read_request(message) {
        Ok(Received { id, known, body }) => show(message, id, known, request(&body)),
        Err(refusal) => show_refusal(refusal.number, refusal.place),
    }
}

pub fn show_reply(message: &[u8]) -> String {
    match read_reply(message) {
        Ok(Received { id, known, body }) => show(message, id, known, reply(message, &body)),
        Err(refusal) => show_refusal(refusal.number, refusal.place),
    }
}

fn show(message: &[u8], id: u32, known: usize, (what, fields): Shown<'_>) -> String {
    let mut shown = String::from(what);
    for (name, value) in &fields {
        shown += &match value {
            Value::Number(number) => format!(" {name} {number}"),
            Value::Part(part) => format!(" {name} {}+{}", start_of(message, part), part.len()),
        };
    }
    shown += &format!(" id {id} known {known}");
    for (name, value) in fields {
        if let Value::Part(part @ [_, ..]) = value {
            shown += &format!(" {name} '{}'", String::from_utf8_lossy(part));
        }
    }
    shown
}

fn request<'a>(request: &Request<'a>) -> Shown<'a> {
    match *request {
        Request::Access { path, mode } => ("access", fields![path, mode]),
        Request::Getattr { path } => ("getattr", fields![path]),
        Request::Readlink { path } => ("readlink", fields![path]),
        Request::Symlink { target, linkpath } => ("symlink", fields![target, linkpath]),
        Request::Link { old_path, new_path } => ("link", fields![old_path, new_path]),
        Request::Rename { old_path, new_path, flags } => ("rename", fields![old_path, new_path, flags]),
        Request::Chmod { path, mode } => ("chmod", fields![path, mode]),
        Request::Chown { path, uid, gid } => ("chown", fields![path, uid, gid]),
        Request::Truncate { path, size, handle } => ("truncate", fields![path, size, handle]),
        Request::Fsync { path, is_datasync, handle } => ("fsync", fields![path, is_datasync, handle]),
        Request::Open { path, flags } => ("open", fields![path, flags]),
        Request::Mknod { path, mode, dev } => ("mknod", fields![path, mode, dev]),
        Request::Create { path, mode } => ("create", fields![path, mode]),
        Request::Release { path, handle } => ("release", fields![path, handle]),
        Request::Unlink { path } => ("unlink", fields![path]),
        Request::Read { path, buffer_size, offset, handle } => ("read", fields![path, buffer_size, offset, handle]),
        Request::Write { path, data, offset, handle } => ("write", fields![path, data, offset, handle]),
        Request::Mkdir { path, mode } => ("mkdir", fields![path, mode]),
        Request::Readdir { path } => ("readdir", fields![path]),
        Request::Rmdir { path } => ("rmdir", fields![path]),
        Request::Statfs { path } => ("statfs", fields![path]),
        Request::Utimens { path, atime, mtime, handle } => ("utimens", utimens(path, atime, mtime, handle)),
        Request::Getcreds => ("getcreds", fields![]),
        Request::Unknown { type_number } => ("unknown", vec![("type", type_number.into())]),
    }
}

fn reply<'a>(message: &[u8], reply: &Reply<'a>) -> Shown<'a> {
    match *reply {
        Reply::Success { result, ref success } => {
            let (method, mut fields) = self::success(message, success);
            fields.extend(fields![result]);
            (method, fields)
        }
        Reply::Failure { type_number, code } => {
            ("failure", vec![("type", type_number.into()), ("result", code.into())])
        }
        Reply::Credentials { creds } => ("getcreds", fields![creds]),
        Reply::UnknownResponse => ("unknown response", fields![]),
    }
}

fn success<'a>(message: &[u8], success: &Success<'a>) -> Shown<'a> {
    match *success {
        Success::Access => ("access", fields![]),
        Success::Getattr(attributes) => ("getattr", members_of_attributes(attributes)),
        Success::Readlink { resolved } => ("readlink", fields![resolved]),
        Success::Symlink => ("symlink", fields![]),
        Success::Link => ("link", fields![]),
        Success::Rename => ("rename", fields![]),
        Success::Chmod => ("chmod", fields![]),
        Success::Chown => ("chown", fields![]),
        Success::Truncate => ("truncate", fields![]),
        Success::Fsync => ("fsync", fields![]),
        Success::Open { handle } => ("open", fields![handle]),
        Success::Mknod => ("mknod", fields![]),
        Success::Create { handle } => ("create", fields![handle]),
        Success::Release => ("release", fields![]),
        Success::Unlink => ("unlink", fields![]),
        Success::Read { data } => ("read", fields![data]),
        Success::Write => ("write", fields![]),
        Success::Mkdir => ("mkdir", fields![]),
        Success::Readdir(ref names) => ("readdir", items(message, names.len() as u64)),
        Success::Rmdir => ("rmdir", fields![]),
        Success::Statfs(statistics) => ("statfs", members_of_statistics(statistics)),
        Success::Utimens => ("utimens", fields![]),
    }
}

/// How many names there are, and where the first stands.
fn items(message: &[u8], items: u64) -> Vec<Field<'static>> {
    let [_, from, ..] = raw::read_reply(message).fields;
    fields![items, from]
}

fn utimens(path: &str, atime: Timestamp, mtime: Timestamp, handle: u64) -> Vec<Field<'_>> {
    let mut fields = fields![path];
    fields.extend(timestamp("atime", atime));
    fields.extend(timestamp("mtime", mtime));
    fields.extend(fields![handle]);
    fields
}

fn timestamp(name: &'static str, time: Timestamp) -> [Field<'static>; 2] {
    [(name, time.seconds.into()), ("nsec", time.nsec.into())]
}

fn members_of_attributes(attributes: Attributes) -> Vec<Field<'static>> {
    let Attributes { inode, nlink, mode, uid, gid, rdev, size, blocks, atime, mtime, ctime } = attributes;
    let mut fields = fields![inode, nlink, mode, uid, gid, rdev, size, blocks];
    fields.extend(timestamp("atime", atime));
    fields.extend(timestamp("mtime", mtime));
    fields.extend(timestamp("ctime", ctime));
    fields
}

fn members_of_statistics(statistics: Statistics) -> Vec<Field<'static>> {
    let Statistics { bsize, frsize, blocks, bfree, bavail, files, ffree, namemax } = statistics;
    fields![bsize, frsize, blocks, bfree, bavail, files, ffree, namemax]
}

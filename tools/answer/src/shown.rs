//! The fields of a message that was read, by their names and in the order of document 01's table.

use crate::fields::Field;
use tushalets::{Attributes, Request, Statistics, Success, Timestamp};

/// A message's method and its fields.
pub type Shown<'a> = (&'static str, Vec<Field<'a>>);

/// Fields that have the names of the variables with their values.
macro_rules! fields {
    ($($name:ident),*) => {
        vec![$(Field { name: stringify!($name), value: $name.into() }),*]
    };
}

pub fn request<'a>(request: &Request<'a>) -> Shown<'a> {
    match *request {
        Request::Access { path, mode } => ("access", fields![path, mode]),
        Request::Getattr { path } => ("getattr", fields![path]),
        Request::Readlink { path } => ("readlink", fields![path]),
        Request::Symlink { target, linkpath } => ("symlink", fields![target, linkpath]),
        Request::Link { old_path, new_path } => ("link", fields![old_path, new_path]),
        Request::Rename { old_path, new_path, flags } => ("rename", fields![old_path, new_path, flags]),
        Request::Chmod { path, mode } => ("chmod", fields![path, mode]),
        Request::Chown { path, uid, gid } => ("chown", fields![path, uid, gid]),
        Request::Truncate { path, size, handle } => ("truncate", fields![path, size, handle]),
        Request::Fsync { path, is_datasync, handle } => ("fsync", fields![path, is_datasync, handle]),
        Request::Open { path, flags } => ("open", fields![path, flags]),
        Request::Mknod { path, mode, dev } => ("mknod", fields![path, mode, dev]),
        Request::Create { path, mode } => ("create", fields![path, mode]),
        Request::Release { path, handle } => ("release", fields![path, handle]),
        Request::Unlink { path } => ("unlink", fields![path]),
        Request::Read { path, buffer_size, offset, handle } => ("read", fields![path, buffer_size, offset, handle]),
        Request::Write { path, data, offset, handle } => ("write", fields![path, data, offset, handle]),
        Request::Mkdir { path, mode } => ("mkdir", fields![path, mode]),
        Request::Readdir { path } => ("readdir", fields![path]),
        Request::Rmdir { path } => ("rmdir", fields![path]),
        Request::Statfs { path } => ("statfs", fields![path]),
        Request::Utimens { path, atime, mtime, handle } => ("utimens", utimens(path, atime, mtime, handle)),
        Request::Getcreds => ("getcreds", fields![]),
        Request::Unknown { .. } => ("unknown", fields![]),
    }
}

/// The names of a readdir reply are no field here; they follow by themselves.
pub fn success<'a>(success: &Success<'a>) -> Shown<'a> {
    match *success {
        Success::Access => ("access", fields![]),
        Success::Getattr(attributes) => ("getattr", members_of_attributes(attributes)),
        Success::Readlink { resolved } => ("readlink", fields![resolved]),
        Success::Symlink => ("symlink", fields![]),
        Success::Link => ("link", fields![]),
        Success::Rename => ("rename", fields![]),
        Success::Chmod => ("chmod", fields![]),
        Success::Chown => ("chown", fields![]),
        Success::Truncate => ("truncate", fields![]),
        Success::Fsync => ("fsync", fields![]),
        Success::Open { handle } => ("open", fields![handle]),
        Success::Mknod => ("mknod", fields![]),
        Success::Create { handle } => ("create", fields![handle]),
        Success::Release => ("release", fields![]),
        Success::Unlink => ("unlink", fields![]),
        Success::Read { data } => ("read", fields![data]),
        Success::Write => ("write", fields![]),
        Success::Mkdir => ("mkdir", fields![]),
        Success::Readdir(_) => ("readdir", fields![]),
        Success::Rmdir => ("rmdir", fields![]),
        Success::Statfs(statistics) => ("statfs", members_of_statistics(statistics)),
        Success::Utimens => ("utimens", fields![]),
    }
}

pub fn credentials(creds: &str) -> Vec<Field<'_>> {
    fields![creds]
}

fn utimens(path: &str, atime: Timestamp, mtime: Timestamp, handle: u64) -> Vec<Field<'_>> {
    let mut fields = fields![path];
    fields.extend(timestamp("atime", "atime.nsec", atime));
    fields.extend(timestamp("mtime", "mtime.nsec", mtime));
    fields.extend(fields![handle]);
    fields
}

fn timestamp(seconds: &'static str, nsec: &'static str, time: Timestamp) -> [Field<'static>; 2] {
    [Field { name: seconds, value: time.seconds.into() }, Field { name: nsec, value: time.nsec.into() }]
}

fn members_of_attributes(attributes: Attributes) -> Vec<Field<'static>> {
    let Attributes { inode, nlink, mode, uid, gid, rdev, size, blocks, atime, mtime, ctime } = attributes;
    let mut fields = fields![inode, nlink, mode, uid, gid, rdev, size, blocks];
    fields.extend(timestamp("atime", "atime.nsec", atime));
    fields.extend(timestamp("mtime", "mtime.nsec", mtime));
    fields.extend(timestamp("ctime", "ctime.nsec", ctime));
    fields
}

fn members_of_statistics(statistics: Statistics) -> Vec<Field<'static>> {
    let Statistics { bsize, frsize, blocks, bfree, bavail, files, ffree, namemax } = statistics;
    fields![bsize, frsize, blocks, bfree, bavail, files, ffree, namemax]
}

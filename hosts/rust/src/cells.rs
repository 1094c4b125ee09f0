//! Structures from the cells of a reading, and as the numbers of a writer, in the order of document 01's table.
use crate::raw::Accepted;
use crate::{Attributes, Statistics, Timestamp};

#[inline]
pub(crate) fn timestamp(a: &Accepted<'_>, cell: usize) -> Timestamp {
    Timestamp { seconds: a.number(cell), nsec: a.number(cell + 1) as u32 }
}

#[inline]
pub(crate) fn attributes(a: &Accepted<'_>, cell: usize) -> Attributes {
    Attributes {
        inode: a.number(cell),
        nlink: a.number(cell + 1),
        mode: a.number(cell + 2) as u32,
        uid: a.number(cell + 3) as u32,
        gid: a.number(cell + 4) as u32,
        rdev: a.number(cell + 5),
        size: a.number(cell + 6),
        blocks: a.number(cell + 7),
        atime: timestamp(a, cell + 8),
        mtime: timestamp(a, cell + 10),
        ctime: timestamp(a, cell + 12),
    }
}

#[inline]
pub(crate) fn statistics(a: &Accepted<'_>, cell: usize) -> Statistics {
    Statistics {
        bsize: a.number(cell),
        frsize: a.number(cell + 1),
        blocks: a.number(cell + 2),
        bfree: a.number(cell + 3),
        bavail: a.number(cell + 4),
        files: a.number(cell + 5),
        ffree: a.number(cell + 6),
        namemax: a.number(cell + 7),
    }
}

pub(crate) static NO_NUMBERS: [u64; 14] = [0; 14];

#[inline]
pub(crate) fn one_number(number: u64) -> [u64; 14] {
    [number, 0, 0, 0, 0, 0, 0, 0, 0, 0, 0, 0, 0, 0]
}

#[inline]
pub(crate) fn numbers_of_attributes(attributes: &Attributes) -> [u64; 14] {
    let Attributes { inode, nlink, mode, uid, gid, rdev, size, blocks, atime, mtime, ctime } = *attributes;
    [
        inode,
        nlink,
        mode as u64,
        uid as u64,
        gid as u64,
        rdev,
        size,
        blocks,
        atime.seconds,
        atime.nsec as u64,
        mtime.seconds,
        mtime.nsec as u64,
        ctime.seconds,
        ctime.nsec as u64,
    ]
}

#[inline]
pub(crate) fn numbers_of_statistics(statistics: &Statistics) -> [u64; 14] {
    let Statistics { bsize, frsize, blocks, bfree, bavail, files, ffree, namemax } = *statistics;
    [bsize, frsize, blocks, bfree, bavail, files, ffree, namemax, 0, 0, 0, 0, 0, 0]
}

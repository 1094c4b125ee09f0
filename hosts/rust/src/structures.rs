/// A point in time. No nanoseconds are refused.
#[derive(Clone, Copy, Debug, Default, PartialEq, Eq, Hash)]
pub struct Timestamp {
    /// Seconds since the epoch.
    pub seconds: u64,
    /// Nanoseconds.
    pub nsec: u32,
}

/// The attributes of a file.
#[derive(Clone, Copy, Debug, Default, PartialEq, Eq, Hash)]
pub struct Attributes {
    /// The inode's number.
    pub inode: u64,
    /// The number of hard links.
    pub nlink: u64,
    /// File type and permissions.
    pub mode: u32,
    /// The user.
    pub uid: u32,
    /// The group.
    pub gid: u32,
    /// The device.
    pub rdev: u64,
    /// The size in bytes.
    pub size: u64,
    /// The number of blocks of 512 bytes.
    pub blocks: u64,
    /// The last access.
    pub atime: Timestamp,
    /// The last modification.
    pub mtime: Timestamp,
    /// The last change of status.
    pub ctime: Timestamp,
}

/// The statistics of a file system.
#[derive(Clone, Copy, Debug, Default, PartialEq, Eq, Hash)]
pub struct Statistics {
    /// The block size.
    pub bsize: u64,
    /// The fragment size.
    pub frsize: u64,
    /// The size of the file system in fragments.
    pub blocks: u64,
    /// The free blocks.
    pub bfree: u64,
    /// The free blocks for unprivileged users.
    pub bavail: u64,
    /// The inodes.
    pub files: u64,
    /// The free inodes.
    pub ffree: u64,
    /// The longest name of a file.
    pub namemax: u64,
}

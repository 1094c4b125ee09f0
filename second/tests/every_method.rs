//! One request and one success of every method, with all fields told apart.

mod common;

use common::{with_parts, REPLY_PARTS, REQUEST_PARTS};
use second::answer::answer;
use second::hex::from_hex;

/// Types and fields behind the id 1, and the answer behind `known 1`. A path
/// `00000001 2f` has its byte at 9 and ends at 10.
const REQUESTS: [(&str, &str); 23] = [
    ("01 00000001 2f fe", "access 11 path=9:1:48 mode=-2"),
    ("02 00000001 2f", "getattr 10 path=9:1:48"),
    ("03 00000001 2f", "readlink 10 path=9:1:48"),
    ("04 00000001 2f 00000001 61", "symlink 15 target=9:1:48 linkpath=14:1:98"),
    ("05 00000001 2f 00000001 61", "link 15 old_path=9:1:48 new_path=14:1:98"),
    ("06 00000001 2f 00000001 61 ff", "rename 16 old_path=9:1:48 new_path=14:1:98 flags=255"),
    ("07 00000001 2f ffffffff", "chmod 14 path=9:1:48 mode=4294967295"),
    ("08 00000001 2f 00000001 00000002", "chown 18 path=9:1:48 uid=1 gid=2"),
    ("09 00000001 2f 0000000000000001 0000000000000002", "truncate 26 path=9:1:48 size=1 handle=2"),
    ("0a 00000001 2f 80 0000000000000002", "fsync 19 path=9:1:48 is_datasync=1 handle=2"),
    ("0b 00000001 2f 80000000", "open 14 path=9:1:48 flags=-2147483648"),
    ("0c 00000001 2f 00000001 0000000000000002", "mknod 22 path=9:1:48 mode=1 dev=2"),
    ("0d 00000001 2f 00000001", "create 14 path=9:1:48 mode=1"),
    ("0e 00000001 2f ffffffffffffffff", "release 18 path=9:1:48 handle=18446744073709551615"),
    ("0f 00000001 2f", "unlink 10 path=9:1:48"),
    (
        "10 00000001 2f 00000001 0000000000000002 0000000000000003",
        "read 30 path=9:1:48 buffer_size=1 offset=2 handle=3",
    ),
    (
        // Item 3 of document 02 puts the path before the fields of the page.
        "11 00000001 2f 00000001 ff 0000000000000001 0000000000000002",
        "write 31 path=9:1:48 data=14:1:256 offset=1 handle=2",
    ),
    ("12 00000001 2f 00000001", "mkdir 14 path=9:1:48 mode=1"),
    ("13 00000001 2f", "readdir 10 path=9:1:48"),
    ("14 00000001 2f", "rmdir 10 path=9:1:48"),
    ("15 00000001 2f", "statfs 10 path=9:1:48"),
    (
        "16 00000001 2f 0000000000000001 00000002 0000000000000003 00000004 0000000000000005",
        "utimens 42 path=9:1:48 atime=1 atime.nsec=2 mtime=3 mtime.nsec=4 handle=5",
    ),
    ("17", "getcreds 5"),
];

/// Fields behind the result 1 of those successes that have some.
const SUCCESSES: [(&str, &str); 7] = [
    (
        "82 00000001 0000000000000001 0000000000000002 00000003 00000004 00000005 \
         0000000000000006 0000000000000007 0000000000000008 0000000000000009 0000000a \
         000000000000000b 0000000c 000000000000000d 0000000e",
        "getattr 1 97 inode=1 nlink=2 mode=3 uid=4 gid=5 rdev=6 size=7 blocks=8 atime=9 \
         atime.nsec=10 mtime=11 mtime.nsec=12 ctime=13 ctime.nsec=14",
    ),
    ("83 00000001 00000001 2f", "readlink 1 14 resolved=13:1:48"),
    ("8b 00000001 0000000000000001", "open 1 17 handle=1"),
    ("8d 00000001 0000000000000001", "create 1 17 handle=1"),
    ("90 00000001 00000001 ff", "read 1 14 data=13:1:256"),
    ("93 00000001 00000000", "readdir 1 13"),
    (
        "95 00000001 0000000000000001 0000000000000002 0000000000000003 0000000000000004 \
         0000000000000005 0000000000000006 0000000000000007 0000000000000008",
        "statfs 1 73 bsize=1 frsize=2 blocks=3 bfree=4 bavail=5 files=6 ffree=7 namemax=8",
    ),
];

/// The methods whose success is the result alone.
const BARE: [(u8, &str); 15] = [
    (0x81, "access"),
    (0x84, "symlink"),
    (0x85, "link"),
    (0x86, "rename"),
    (0x87, "chmod"),
    (0x88, "chown"),
    (0x89, "truncate"),
    (0x8a, "fsync"),
    (0x8c, "mknod"),
    (0x8e, "release"),
    (0x8f, "unlink"),
    (0x91, "write"),
    (0x92, "mkdir"),
    (0x94, "rmdir"),
    (0x96, "utimens"),
];

fn answered(op: u8, text: &str) -> String {
    let message = from_hex(&format!("00000001 {text}"));
    let mut body = (message.len() as u32).to_be_bytes().to_vec();
    body.push(0);
    body.extend(message);
    answer(op, &body).unwrap()
}

#[test]
fn requests() {
    for (text, wanted) in REQUESTS {
        let line = format!("known 1 {wanted}");
        assert_eq!(answered(b'q', text), with_parts(&REQUEST_PARTS, &line));
    }
}

#[test]
fn successes() {
    for (text, wanted) in SUCCESSES {
        let line = with_parts(&REPLY_PARTS, &format!("success 1 {wanted}"));
        assert_eq!(answered(b'p', text), line + " names=0:0 end");
    }
    for (kind, name) in BARE {
        let line = with_parts(&REPLY_PARTS, &format!("success 1 {name} 1 9"));
        assert_eq!(answered(b'p', &format!("{kind:02x} 00000001")), line + " names=0:0 end");
    }
}

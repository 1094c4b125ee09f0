//! The worked messages of document 01 and the examples of the page.

use crate::hex::from_hex;
use crate::make::case::{again, front, listing, read, Case, Filled, Side};

pub const REQUESTS: [&str; 13] = [
    "",
    "00000001 02 00000001 2f",
    "00000001 02 00000001 2f ff",
    "00000001 02 00000002 2f",
    "00000001 02 00000004 2f666f6f",
    "00000002 13 00000004 2f646972",
    "00000023 42",
    "00000005 0f 00000001 80",
    "00000007 01 00000000 ff",
    "00000007 01 00000002 2f61 04",
    "00000007 01 00000002 2f61 04 0a",
    "00000005 0f 00000003 ed9fbf",
    "00000005 0f 00000003 eda080",
];

pub const REPLIES: [&str; 14] = [
    "00000001 82 fffffffe",
    "00000001 82 00000000",
    "00000009 90 00000002 00000001 61",
    "00000009 90 00000001 00000001 61",
    "00000002 93 00000000 ffffffff",
    "00000023 80",
    "00000001 82 00000000 0000000000000001 0000000000000002 000041a4 000003e8 000003e8 \
     0000000000000000 0000000000000000 0000000000000000 0000000000 \
     0000000000000000 0000000000 0000000000000000 0000000000",
    "00000002 93 00000000 00000003 00000003 666f6f 00000003 626172 00000003 62617a",
    "00000003 97 00000004 f48fbfbf",
    "00000003 97 00000004 f4908080",
    "00000003 97 ffffffea",
    "00000003 83 00000000 00000002 c280",
    "00000003 83 00000000 00000002 c080",
    "00000003 91 00000007",
];

pub fn add(out: &mut Vec<Case>) {
    for row in REQUESTS {
        let message = Filled::exact(&from_hex(row));
        out.push(read(Side::Request, &message));
        out.push(listing(300, &message));
        out.push(front(12, &message));
        out.push(again(Side::Request, 16, &message));
    }
    for row in REPLIES {
        let message = Filled::exact(&from_hex(row));
        out.push(read(Side::Reply, &message));
        out.push(again(Side::Reply, 40, &message));
    }
    for whole in [65_536, 65_537] {
        let message = Filled::padded(&from_hex("00000001 17"), whole, 0);
        out.push(read(Side::Request, &message));
        out.push(listing(300, &message));
    }
}

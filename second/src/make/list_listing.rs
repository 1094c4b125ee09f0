//! Listings into buffers that are exact, short and larger.

use crate::hex::from_hex;
use crate::listing::list_request;
use crate::make::case::{listing, Case, Filled};

/// Requests of several shapes, an unknown one, and refused ones.
const REQUESTS: [&str; 11] = [
    "00000007 01 00000002 2f61 80",
    "00000001 02 00000001 2f",
    "00000001 06 00000001 61 00000002 6262 ff",
    "00000001 0a 00000000 02 ffffffffffffffff",
    "00000001 11 00000001 2f 00000003 ffffff 0000000000000001 0000000000000002",
    "ffffffff 16 00000000 ffffffffffffffff ffffffff ffffffffffffffff ffffffff ffffffffffffffff",
    "00000001 17",
    "00000023 42 00",
    "",
    "00000001 02 00000002 2f",
    "00000005 0f 00000001 80",
];

pub fn add(out: &mut Vec<Case>) {
    for request in REQUESTS {
        let bytes = from_hex(request);
        let exact = list_request(&bytes).len();
        for room in [0, exact - 1, exact, exact + 1, 300] {
            out.push(listing(room, &Filled::exact(&bytes)));
        }
    }
}

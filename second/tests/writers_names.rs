//! Lists of lengths for the names of a readdir reply.

mod common;

use common::*;
use second::hex::from_hex;
use second::write_reply::write_readdir;

fn refused(number: u8, run: &[u8], lengths: &[u32]) {
    assert_refused(number, 100, |buffer| write_readdir(buffer, 1, 0, run, lengths));
}

fn stored(tail: &str, run: &[u8], lengths: &[u32]) {
    let wanted = from_hex(&format!("00000001 93 00000000 {tail}"));
    assert_stored(&wanted, 100, |buffer| write_readdir(buffer, 1, 0, run, lengths));
}

#[test]
fn sums_that_are_wrong() {
    for lengths in [&[][..], &[1], &[3], &[2, 1], &[1, 0], &[0]] {
        refused(9, b"ab", lengths);
    }
    refused(9, b"", &[1]);
}

#[test]
fn sums_that_wrap() {
    refused(9, b"ab", &[0xffff_ffff, 3]);
    refused(9, b"ab", &[3, 0xffff_ffff]);
    refused(9, b"ab", &[0x8000_0000, 0x8000_0002]);
    refused(9, b"ab", &[2, 0x8000_0000, 0x8000_0000]);
    refused(9, b"", &[0x8000_0000, 0x8000_0000]);
    refused(9, b"ab", &[0x4000_0000, 0x4000_0000, 0x4000_0000, 0x4000_0000, 2]);
    refused(9, b"ab", &[0xffff_ffff; 1_000]);
}

#[test]
fn empty_names_are_names() {
    stored("00000000", b"", &[]);
    stored("00000001 00000000", b"", &[0]);
    stored("00000003 00000000 00000002 6162 00000000", b"ab", &[0, 2, 0]);
}

#[test]
fn a_character_split_over_two_names() {
    stored("00000001 00000002 c3a9", b"\xc3\xa9", &[2]);
    refused(5, b"\xc3\xa9", &[1, 1]);
    refused(5, b"a\xf0\x9f\x98\x80", &[3, 2]);
    stored("00000002 00000001 61 00000004 f09f9880", b"a\xf0\x9f\x98\x80", &[1, 4]);
    // A good name before the split one, and a bad last name.
    refused(5, b"\xc3\xa9\xc3\xa9", &[2, 1, 1]);
    refused(5, b"abc\xff", &[1, 1, 1, 1]);
}

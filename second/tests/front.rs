//! The front with all small buffers.

mod common;

use common::*;
use second::front::{front, Front};
use second::hex::from_hex;
use second::refusal::Refusal;

/// The front's answer for each room up to 12: nothing below `needed`, then
/// the bytes with the rest of the buffer as before.
fn answers(request: &[u8], needed: &[u8]) {
    for room in (0..=12).chain([65_537, 70_000]) {
        let mut buffer = pattern(room);
        let answer = front(request, &mut buffer);
        if room < needed.len() {
            assert_eq!(answer, Front::Refused(Refusal { number: 7, place: 0 }));
            assert_eq!(buffer, pattern(room));
        } else {
            assert_eq!(answer, Front::Stored(needed.len()));
            assert_eq!(&buffer[..needed.len()], needed);
            assert_eq!(buffer[needed.len()..], pattern(room)[needed.len()..]);
        }
    }
}

fn unchanged(request: &[u8], wanted: Front) {
    for room in 0..=12 {
        let mut buffer = pattern(room);
        assert_eq!(front(request, &mut buffer), wanted);
        assert_eq!(buffer, pattern(room));
    }
}

#[test]
fn truncated_headers_are_refused_before_the_room_counts() {
    for length in 0..5 {
        let refused = Front::Refused(Refusal { number: 1, place: 0 });
        unchanged(&from_hex("0102030402")[..length], refused);
    }
}

#[test]
fn known_requests_are_handed_on() {
    unchanged(&from_hex("01020304 17"), Front::HandedOn);
    unchanged(&from_hex("01020304 02 00000001 2f ff"), Front::HandedOn);
}

#[test]
fn unknown_types_get_80() {
    for kind in (0x18..=0xff).chain([0]) {
        answers(&[1, 2, 3, 4, kind], &[1, 2, 3, 4, 0x80]);
        answers(&[1, 2, 3, 4, kind, 9, 9], &[1, 2, 3, 4, 0x80]);
    }
}

#[test]
fn oversize_requests_get_80() {
    for kind in [0x00, 0x02, 0x17, 0x42, 0xff] {
        let mut request = vec![0; 65_537];
        request[..5].copy_from_slice(&[9, 8, 7, 6, kind]);
        answers(&request, &[9, 8, 7, 6, 0x80]);
    }
}

#[test]
fn short_requests_and_bad_texts_get_a_failure() {
    for kind in 0x01..=0x16 {
        let failure = [1, 2, 3, 4, kind + 0x80, 0xff, 0xff, 0xff, 0xea];
        answers(&[1, 2, 3, 4, kind], &failure);
        answers(&[1, 2, 3, 4, kind, 0, 0, 0, 1, 0x80], &failure);
    }
}

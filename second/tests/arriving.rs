//! Replies that arrive at the table of outstanding requests.

mod common;

use common::records::{assert_answered, assert_kept, held, reply, table};
use second::hex::from_hex;
use second::outstanding::{arrive, Record};
use second::reply::read_reply;

/// Every reply type for a request of every type.
#[test]
fn a_reply_has_its_requests_type_or_80() {
    for request in 0..0x80 {
        let records = table(64, &[(9, 6, 0x01), (30, 7, request), (31, 8, request)]);
        for kind in 0..=255 {
            let message = reply(7, kind);
            if !(0x80..=0x97).contains(&kind) {
                assert_kept(&records, &message, 3, 4);
            } else if kind == 0x80 || kind == request + 0x80 {
                assert_answered(&records, &message, 30);
            } else {
                assert_kept(&records, &message, 13, 0);
            }
        }
    }
}

#[test]
fn successes_answer_as_failures_do() {
    let accepted = [
        (0x01, "81 00000000"),
        (0x0b, "8b 00000005 ffffffffffffffff"),
        (0x10, "90 00000001 00000001 61 ff"),
        (0x11, "91 7fffffff"),
        (0x13, "93 00000000 00000002 00000000 00000001 61"),
        (0x17, "97 00000001 61"),
        (0x03, "83 00000000 00000002 c3a9"),
        (0x03, "83 80000000 ffffffff"),
        (0x42, "80 ffff"),
        (0x03, "80"),
    ];
    for (request, behind) in accepted {
        let message = from_hex(&format!("00000007 {behind}"));
        for place in [0, 63] {
            assert_answered(&table(64, &[(place, 7, request)]), &message, place);
        }
        assert_kept(&table(64, &[(0, 6, request)]), &message, 12, 0);
        if !behind.starts_with("80") {
            assert_kept(&table(64, &[(0, 7, 0x16)]), &message, 13, 0);
        }
    }
}

#[test]
fn the_readers_refusal_comes_before_12_and_13() {
    let refused = [
        (0x02, "82", 4, 5),
        (0x02, "82 00000000", 4, 9),
        (0x02, "82 00000000 0000000000000001 00", 4, 17),
        (0x03, "83 00000000 00000001 80", 5, 13),
        (0x10, "90 00000002 00000001 61", 6, 5),
        (0x13, "93 00000000 00000002 00000001 61 00000001 ff", 5, 22),
        (0x13, "93 00000000 ffffffff", 4, 13),
        (0x17, "97 ffffffea", 4, 9),
        (0x18, "98", 3, 4),
        (0x02, "02 00000001 2f", 3, 4),
        (0x7f, "ff", 3, 4),
        (0x00, "00", 3, 4),
    ];
    for (request, behind, number, place) in refused {
        let message = from_hex(&format!("00000007 {behind}"));
        for records in [
            table(64, &[(1, 7, request)]),
            // Of another type, not outstanding, and nothing outstanding.
            table(64, &[(1, 7, 0x16)]),
            held(64),
            table(64, &[]),
        ] {
            assert_kept(&records, &message, number, place);
        }
    }
    let mut message = reply(7, 0x82);
    for length in 0..5 {
        assert_kept(&table(64, &[(1, 7, 0x02)]), &message[..length], 1, 0);
    }
    message.resize(65_537, 0);
    assert_kept(&table(64, &[(1, 7, 0x02)]), &message, 2, 0);
    assert_answered(&table(64, &[(1, 7, 0x02)]), &message[..65_536], 1);
}

#[test]
fn a_stray_reply_is_noticed() {
    let records = held(64);
    for id in [0, 7, 99, 164, 100 << 8, 100 << 24, u32::MAX] {
        for kind in 0x80..=0x97 {
            assert_kept(&records, &reply(id, kind), 12, 0);
            assert_kept(&table(64, &[]), &reply(id, kind), 12, 0);
        }
    }
    // A second reply to the same request.
    let mut records = held(64);
    arrive(&mut records, &reply(130, 0x82));
    assert_eq!(records[30], Record::Free);
    assert_kept(&records, &reply(130, 0x82), 12, 0);
    assert_kept(&records, &reply(130, 0x80), 12, 0);
}

#[test]
fn replies_in_either_order_end_in_the_same_records() {
    let ended = |ids: [u32; 2]| {
        let mut records = held(64);
        for id in ids {
            assert_eq!(arrive(&mut records, &reply(id, 0x80)), read_reply(&reply(id, 0x80)));
        }
        records
    };
    let mut wanted = held(64);
    wanted[3] = Record::Free;
    wanted[50] = Record::Free;
    assert_eq!(ended([103, 150]), wanted);
    assert_eq!(ended([150, 103]), wanted);
}

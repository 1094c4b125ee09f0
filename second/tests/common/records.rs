//! Tables of records, and what a call does to them.

use second::hex::from_hex;
use second::outstanding::{arrive, empty, enter, look, Record};
use second::refusal::Refusal;
use second::reply::{read_reply, Reply};

/// A table of free records with these requests at their places.
pub fn table(length: usize, requests: &[(usize, u32, u8)]) -> Vec<Record> {
    let mut records = vec![Record::Free; length];
    for (place, id, kind) in requests {
        records[*place] = Record::Held { id: *id, kind: *kind };
    }
    records
}

/// Record i holds id 100 + i, all of type getattr.
pub fn held(length: usize) -> Vec<Record> {
    (0..length).map(|place| Record::Held { id: 100 + place as u32, kind: 0x02 }).collect()
}

/// A failure of this type; getcreds has empty creds, and 80 nothing behind.
pub fn reply(id: u32, kind: u8) -> Vec<u8> {
    let behind = match kind {
        0x80 => "",
        0x97 => "00000000",
        _ => "fffffffe",
    };
    [&id.to_be_bytes()[..], &[kind], &from_hex(behind)].concat()
}

/// Number and place of the refusal of a reply.
pub fn refusal(reply: Reply) -> (u8, usize) {
    match reply {
        Reply::Refused(refusal) => (refusal.number, refusal.place),
        other => panic!("not refused: {other:?}"),
    }
}

/// Entering is refused with this number at 0, and the records stay.
pub fn assert_not_entered(records: &[Record], id: u32, kind: u8, number: u8) {
    let mut after = records.to_vec();
    assert_eq!(enter(&mut after, id, kind), Err(Refusal { number, place: 0 }));
    assert_eq!(after, records);
}

/// The reply is refused, and the records stay.
pub fn assert_kept(records: &[Record], message: &[u8], number: u8, place: usize) {
    let mut after = records.to_vec();
    assert_eq!(refusal(arrive(&mut after, message)), (number, place));
    assert_eq!(after, records);
}

/// The reply is answered as the reader answers, and this record alone changes:
/// it is free.
pub fn assert_answered(records: &[Record], message: &[u8], place: usize) {
    let mut after = records.to_vec();
    assert_eq!(arrive(&mut after, message), read_reply(message));
    let mut wanted = records.to_vec();
    wanted[place] = Record::Free;
    assert_eq!(after, wanted);
}

/// Emptying frees all records.
pub fn assert_emptied(records: &[Record]) {
    let mut after = records.to_vec();
    assert_eq!(empty(&mut after), Ok(()));
    assert_eq!(after, table(64, &[]));
}

/// Every call but emptying gives 20 before all else.
pub fn assert_unsound(records: &[Record]) {
    for id in [0, 7, 100, 163, u32::MAX] {
        for kind in [0x00, 0x02, 0x7f, 0x80, 0xff] {
            assert_not_entered(records, id, kind, 20);
        }
        for kind in [0x80, 0x82, 0x97, 0x98, 0x00] {
            assert_kept(records, &reply(id, kind), 20, 0);
            assert_kept(records, &reply(id, kind)[..4], 20, 0);
        }
        assert_kept(records, &[&id.to_be_bytes()[..], &from_hex("82 00000000")].concat(), 20, 0);
        assert_eq!(look(records, id), Err(Refusal { number: 20, place: 0 }));
    }
    assert_kept(records, &[0; 65_537], 20, 0);
    for behind in ["83 00000000 00000001 80", "90 00000002 00000001 61"] {
        assert_kept(records, &from_hex(&format!("00000007 {behind}")), 20, 0);
    }
}

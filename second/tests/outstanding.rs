//! The table of outstanding requests: which tables are sound, emptying,
//! entering and looking.

mod common;

use common::records::{
    assert_emptied, assert_kept, assert_not_entered, assert_unsound, held, reply, table,
};
use second::outstanding::{arrive, empty, enter, look, Looked, Record};
use second::refusal::Refusal;
use second::reply::Reply;

#[test]
fn a_table_has_64_records() {
    for length in [0, 1, 2, 63, 65, 128, 1_000] {
        for mut records in [table(length, &[]), held(length)] {
            assert_unsound(&records);
            let before = records.clone();
            assert_eq!(empty(&mut records), Err(Refusal { number: 20, place: 0 }));
            assert_eq!(records, before);
        }
    }
    for records in [table(64, &[]), held(64)] {
        assert!(look(&records, 7).is_ok());
        assert_emptied(&records);
    }
}

#[test]
fn no_id_is_held_twice() {
    for pair in [[0, 1], [0, 63], [62, 63], [31, 32], [3, 50]] {
        for kinds in [[0x02, 0x02], [0x02, 0x42], [0x00, 0x7f]] {
            for id in [0, 7, 100 + pair[0] as u32, u32::MAX] {
                for mut records in [table(64, &[]), held(64)] {
                    records[pair[0]] = Record::Held { id, kind: kinds[0] };
                    records[pair[1]] = Record::Held { id, kind: kinds[1] };
                    assert_unsound(&records);
                    assert_emptied(&records);
                }
            }
        }
    }
}

#[test]
fn held_types_are_below_80() {
    for kind in 0..=255 {
        for place in [0, 31, 63] {
            let records = table(64, &[(place, 7, kind)]);
            if kind < 0x80 {
                let wanted = Looked { count: 1, kind: Some(kind) };
                assert_eq!(look(&records, 7), Ok(wanted));
                continue;
            }
            assert_unsound(&records);
            assert_emptied(&records);
        }
    }
}

#[test]
fn types_below_80_are_entered() {
    for kind in 0..=255 {
        let mut records = table(64, &[]);
        if kind < 0x80 {
            assert_eq!(enter(&mut records, 7, kind), Ok(()));
            assert_eq!(records, table(64, &[(0, 7, kind)]));
        } else {
            assert_not_entered(&records, 7, kind, 3);
        }
    }
}

#[test]
fn entering_has_an_order_of_refusals() {
    // Room, one id outstanding.
    let one = table(64, &[(5, 7, 0x02)]);
    assert_not_entered(&one, 7, 0x80, 3);
    assert_not_entered(&one, 7, 0x02, 10);
    assert_not_entered(&one, 7, 0x42, 10);
    // No room.
    let full = held(64);
    assert_not_entered(&full, 100, 0xff, 3);
    assert_not_entered(&full, 7, 0x80, 3);
    for id in 100..164 {
        assert_not_entered(&full, id, 0x02, 10);
    }
    assert_not_entered(&full, 7, 0x02, 11);
    assert_not_entered(&full, 0, 0x00, 11);
}

#[test]
fn sixty_four_requests_have_room() {
    let mut records = table(64, &[]);
    for place in 0..64 {
        assert_eq!(look(&records, 100), looked(place, (place > 0).then_some(0x02)));
        assert_eq!(enter(&mut records, 100 + place as u32, 0x02), Ok(()));
        assert_eq!(records[..=place], held(64)[..=place]);
        assert_eq!(records[place + 1..], table(63 - place, &[]));
    }
    assert_not_entered(&records, 164, 0x02, 11);
    assert_eq!(look(&records, 163), looked(64, Some(0x02)));
}

fn looked(count: usize, kind: Option<u8>) -> Result<Looked, Refusal> {
    Ok(Looked { count, kind })
}

#[test]
fn the_first_free_record_is_used() {
    for gaps in [&[0][..], &[1], &[63], &[5, 40], &[0, 63], &[10, 20, 30]] {
        let mut records = held(64);
        gaps.iter().for_each(|place| records[*place] = Record::Free);
        for (more, place) in gaps.iter().enumerate() {
            let mut wanted = records.clone();
            let id = 7 + more as u32;
            wanted[*place] = Record::Held { id, kind: 0x42 };
            assert_eq!(enter(&mut records, id, 0x42), Ok(()));
            assert_eq!(records, wanted);
        }
        assert_not_entered(&records, 99, 0x42, 11);
    }
}

#[test]
fn freed_records_are_used_next() {
    let mut records = held(64);
    for id in [140, 110] {
        assert!(matches!(arrive(&mut records, &reply(id, 0x82)), Reply::Failure { .. }));
    }
    enter(&mut records, 7, 0x01).unwrap();
    assert_eq!(records[10], Record::Held { id: 7, kind: 0x01 });
    assert_eq!(records[40], Record::Free);
    // The answered id again, in the other room.
    enter(&mut records, 110, 0x03).unwrap();
    assert_eq!(records[40], Record::Held { id: 110, kind: 0x03 });
    assert_not_entered(&records, 140, 0x01, 11);
}

#[test]
fn a_look_tells_the_count_and_the_type() {
    assert_eq!(look(&table(64, &[]), 0), looked(0, None));
    let records = table(64, &[(0, 0, 0x00), (7, 9, 0x7f), (63, u32::MAX, 0x17)]);
    assert_eq!(look(&records, 0), looked(3, Some(0x00)));
    assert_eq!(look(&records, 9), looked(3, Some(0x7f)));
    assert_eq!(look(&records, u32::MAX), looked(3, Some(0x17)));
    assert_eq!(look(&records, 8), looked(3, None));
    assert_eq!(look(&held(64), 163), looked(64, Some(0x02)));
    assert_eq!(look(&held(64), 164), looked(64, None));
}

/// Ids that differ in one bit are different ids.
#[test]
fn ids_are_compared_whole() {
    let id = 0x5152_5354;
    let records = table(64, &[(5, id, 0x02)]);
    for bit in 0..32 {
        let other = id ^ 1 << bit;
        assert_eq!(look(&records, other), looked(1, None));
        assert_kept(&records, &reply(other, 0x82), 12, 0);
        let mut both = records.clone();
        assert_eq!(enter(&mut both, other, 0x42), Ok(()));
        assert_eq!(both, table(64, &[(0, other, 0x42), (5, id, 0x02)]));
        assert_eq!(look(&both, id), looked(2, Some(0x02)));
    }
}

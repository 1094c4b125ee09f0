//! The cases of op `t` with tables that are not sound: every cause with every
//! call.

mod common;

use std::collections::{BTreeMap, BTreeSet};

use common::tables::{causes, fixed, fresh, Called, Held, Table};
use second::reply::{read_reply, Reply};

/// What the calls on tables with one cause alone would have been without it.
fn hidden_by_cause(tables: &[Table]) -> BTreeMap<&'static str, BTreeSet<String>> {
    let mut found: BTreeMap<&str, BTreeSet<String>> = BTreeMap::new();
    for Table { records, told } in tables {
        let causes: Vec<&str> = causes(records).into_iter().collect();
        let [cause] = causes[..] else { continue };
        // Behind an emptied table the cause is gone.
        for told in told.iter().take_while(|told| told.outcome() == "20 at 0") {
            found.entry(cause).or_default().insert(hidden(records, &told.call));
        }
    }
    found
}

/// Each cause alone meets every call, with whatever else it could be refused
/// for. By seed some refusals of the reader are too rare to count on.
#[test]
fn unsound_tables_meet_every_other_refusal() {
    let often = ["10", "11", "12", "13", "3", "4", "answered", "entered", "looked", "stray"];
    let rare = ["1", "2", "5", "6"];
    let fixed = hidden_by_cause(&fixed("t"));
    let fresh = hidden_by_cause(&fresh("t", 6_000));
    for cause in ["twice", "type", "length"] {
        for hidden in often {
            assert!(fixed[cause].contains(hidden), "{cause}: {hidden}");
            assert!(fresh[cause].contains(hidden), "{cause}: {hidden}");
        }
        assert!(rare.iter().all(|hidden| fixed[cause].contains(*hidden)), "{cause}");
        // Emptying is refused for the number of records alone.
        for found in [&fixed, &fresh] {
            assert_eq!(found[cause].contains("emptied"), cause == "length");
        }
    }
}

/// What the call would have been without the cause.
fn hidden(records: &[Held], call: &Called) -> String {
    let held = |id: u32| records.iter().flatten().find(|held| held.0 == id);
    match call {
        Called::Empty => "emptied",
        Called::Look(_) => "looked",
        Called::Enter(_, 0x80..) => "3",
        Called::Enter(id, _) if held(*id).is_some() => "10",
        Called::Enter(..) if records.iter().all(Option::is_some) => "11",
        Called::Enter(..) => "entered",
        Called::Arrive(message) => match read_reply(message) {
            Reply::Refused(refusal) if refusal.place == 4 => "stray",
            Reply::Refused(refusal) => return refusal.number.to_string(),
            _ => match held(u32::from_be_bytes(message[..4].try_into().unwrap())) {
                None => "12",
                Some((_, kind)) if [0x80, kind | 0x80].contains(&message[4]) => "answered",
                Some(_) => "13",
            },
        },
    }
    .to_string()
}

#[test]
fn places_and_lengths_of_unsound_tables() {
    let tables = fixed("t");
    let lengths: BTreeSet<usize> = tables.iter().map(|table| table.records.len()).collect();
    assert!(lengths.into_iter().eq([0, 1, 2, 63, 64, 65, 128, 200]));
    // An id in the first and in the last record, alone and among 64.
    let ends = |count: usize| {
        tables.iter().any(|Table { records, .. }| {
            let held = records.iter().flatten().count();
            held == count && records.len() == 64 && records[0] == records[63]
        })
    };
    assert!(ends(2) && ends(64));
    for place in [0, 63] {
        for kind in [0x7f, 0x80, 0xff] {
            let has = |table: &Table| {
                table.records.get(place).is_some_and(|held| held.is_some_and(|held| held.1 == kind))
            };
            assert!(tables.iter().any(has));
        }
    }
}

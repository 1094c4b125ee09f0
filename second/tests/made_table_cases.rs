//! The cases of ops `t` and `o`: every outcome and every type, in the fixed
//! list and by seed.

mod common;

use std::collections::{BTreeMap, BTreeSet};

use common::tables::{causes, fixed, fresh, Called, Table};
use second::methods::METHODS;

/// Every outcome of a call, and the least number of a thousand random calls
/// that have it: about half of what was measured.
const OUTCOMES: [(&str, usize); 20] = [
    ("1 at 0", 2),
    ("10 at 0", 28),
    ("11 at 0", 4),
    ("12 at 0", 43),
    ("13 at 0", 30),
    ("2 at 0", 1),
    ("20 at 0", 19),
    ("3 at 0", 14),
    ("3 at P", 21),
    ("4 at P", 7),
    ("5 at P", 4),
    ("6 at P", 2),
    ("credentials", 3),
    ("emptied", 11),
    ("entered", 130),
    ("failure", 14),
    ("looked", 28),
    ("looked none", 27),
    ("success", 75),
    ("unknown-response", 31),
];

/// A message of `o` is never too long, and all its answered replies are told
/// alike.
const NOT_SINGLE: [&str; 7] =
    ["2 at 0", "credentials", "failure", "looked", "looked none", "success", "unknown-response"];

const LONGEST_MESSAGE: usize = 1_024;

/// How often each outcome is met.
fn counted(tables: &[Table]) -> BTreeMap<String, usize> {
    let mut found = BTreeMap::new();
    for told in tables.iter().flat_map(|table| &table.told) {
        *found.entry(told.outcome()).or_default() += 1;
    }
    found
}

#[test]
fn every_outcome_of_calls() {
    let wanted = || OUTCOMES.iter().map(|(outcome, _)| *outcome);
    assert!(counted(&fixed("t")).keys().eq(wanted()));
    let tables = fresh("t", 3_000);
    let found = counted(&tables);
    assert!(found.keys().eq(wanted()));
    let calls: usize = found.values().sum();
    for (outcome, least) in OUTCOMES {
        assert!(found[outcome] * 1_000 >= least * calls, "{outcome}: {}", found[outcome]);
    }
}

#[test]
fn every_outcome_of_single_calls() {
    let outcomes = OUTCOMES.map(|(outcome, _)| outcome);
    let mut wanted: BTreeSet<&str> = BTreeSet::from(outcomes);
    wanted.retain(|outcome| !NOT_SINGLE.contains(outcome));
    wanted.insert("answered");
    for tables in [fixed("o"), fresh("o", 3_000)] {
        let found = counted(&tables);
        assert!(found.keys().eq(&wanted));
    }
}

/// Small programs read these cases, so they are few and short.
#[test]
fn single_cases_are_small() {
    let fixed = fixed("o");
    assert!((180..=240).contains(&fixed.len()));
    let lengths: Vec<usize> =
        fixed.iter().chain(&fresh("o", 2_000)).filter_map(message_length).collect();
    assert!(lengths.iter().all(|length| *length <= LONGEST_MESSAGE));
    assert!(lengths.contains(&LONGEST_MESSAGE) && lengths.contains(&0));
    let short = lengths.iter().filter(|length| **length <= 100).count();
    assert!(short * 10 >= lengths.len() * 8, "{short} of {}", lengths.len());
}

fn message_length(table: &Table) -> Option<usize> {
    match &table.told[0].call {
        Called::Arrive(message) => Some(message.len()),
        _ => None,
    }
}

/// The fixed list enters every type below 80, and refuses every other one.
#[test]
fn every_type_is_entered() {
    let mut found = BTreeSet::new();
    for told in fixed("t").iter().flat_map(|table| &table.told) {
        if let Called::Enter(_, kind) = told.call {
            found.insert((kind, told.outcome()));
        }
    }
    for kind in 0..=255 {
        let outcome = if kind < 0x80 { "entered" } else { "3 at 0" };
        assert!(found.contains(&(kind, outcome.to_string())), "{kind}");
    }
}

/// Request type, reply type and outcome of the replies to one of two requests
/// of the same type, which are all that the table holds.
fn reply_types() -> BTreeSet<(u8, u8, String)> {
    let mut found = BTreeSet::new();
    for Table { records, told } in fixed("t") {
        let held: Vec<(u32, u8)> = records.iter().copied().flatten().collect();
        let [(first, kind), (second, other)] = held[..] else { continue };
        if kind != other {
            continue;
        }
        for told in told {
            let Called::Arrive(message) = &told.call else { continue };
            let ours = message.get(..4).is_some_and(|id| {
                [first, second].map(u32::to_be_bytes).iter().any(|held| held == id)
            });
            if ours && message.len() > 4 {
                found.insert((kind, message[4], told.outcome()));
            }
        }
    }
    found
}

/// Every accepted reply meets a request of every type; both the success and
/// the failure of a method answer its request.
#[test]
fn every_reply_meets_every_request() {
    let found = reply_types();
    let met = |request, reply, outcome: &str| {
        let met = found.contains(&(request, reply, outcome.to_string()));
        assert!(met, "{request:02x} {reply:02x} {outcome}");
    };
    for request in 0..0x80 {
        met(request, 0x80, "unknown-response");
        for method in METHODS.iter().filter(|method| method.number != request) {
            met(request, method.reply_number(), "13 at 0");
        }
        match request {
            0x17 => met(request, 0x97, "credentials"),
            0x01..=0x16 => met(request, request + 0x80, "success"),
            _ => {}
        }
    }
    let failures = fixed("t").into_iter().flat_map(|table| table.told).filter_map(|told| {
        let words: Vec<&str> = told.words.split(' ').collect();
        (words[0] == "failure").then(|| words[2].parse::<u8>().unwrap())
    });
    assert!(failures.collect::<BTreeSet<u8>>().into_iter().eq(0x81..=0x96));
}

#[test]
fn a_table_is_filled_from_none_to_all() {
    let filled = fixed("t").into_iter().any(|table| {
        let outcomes: Vec<String> = table.told.iter().map(|told| told.outcome()).collect();
        table.records.iter().all(Option::is_none)
            && outcomes.len() > 66
            && outcomes[..64].iter().all(|outcome| outcome == "entered")
            && outcomes[64] == "11 at 0"
            && outcomes[65] == "10 at 0"
    });
    assert!(filled);
}

/// Tables of all counts, most of them sound; ids at the ends, outstanding and
/// not.
#[test]
fn random_tables_of_all_kinds() {
    let tables = fresh("t", 3_000);
    let sound = |table: &&Table| causes(&table.records).is_empty();
    let counts: BTreeSet<usize> =
        tables.iter().filter(sound).map(|table| table.records.iter().flatten().count()).collect();
    assert!([0, 1, 31, 32, 33, 63, 64].iter().all(|count| counts.contains(count)));
    let share = tables.iter().filter(sound).count() * 100 / tables.len();
    assert!((80..=90).contains(&share), "{share}");
    let longest = tables.iter().map(|table| table.told.len()).max().unwrap();
    assert!(longest == 40 && tables.iter().any(|table| table.told.len() == 1));
    let mut looks = BTreeSet::new();
    for told in tables.iter().flat_map(|table| &table.told) {
        if let Called::Look(id @ (0 | u32::MAX)) = told.call {
            looks.insert((id, told.outcome()));
        }
    }
    for outcome in ["looked", "looked none", "20 at 0"] {
        assert!([0, u32::MAX].iter().all(|id| looks.contains(&(*id, outcome.to_string()))));
    }
}

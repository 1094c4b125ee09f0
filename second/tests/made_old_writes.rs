//! The cases with writes of the page's row, without a path: some are accepted,
//! and the others are refused in all ways.

mod common;

use std::collections::BTreeSet;

use common::length_at;
use common::writes::{cut_everywhere, fixed, run_at, third, Met, BROKEN, OPS, THIRDS};
use second::make::Cases;

/// By this handle, behind data and offset, the made ones are known.
const HANDLE: &[u8] = b"12345678";

/// The made writes without a path, with the length of their data and of what
/// stands behind them.
fn old(op: &str) -> Vec<(Met, usize, usize)> {
    let sizes = |met: Met| {
        let data = run_at(&met.message, 5).ok()?;
        let end = data.end + 16;
        let found = met.message.get(data.end + 8..end)? == HANDLE;
        found.then(|| (data.len(), met.message.len() - end)).map(|(data, more)| (met, data, more))
    };
    fixed(op).into_iter().filter_map(sizes).collect()
}

/// How it is read: accepted, truncated in a field, or with a malformed path.
fn outcome(met: &Met) -> &'static str {
    let path = run_at(&met.message, 5).unwrap();
    match met.read {
        Ok(_) => "accepted",
        Err((5, _)) => third(met).unwrap(),
        Err((4, place)) if place == path.end + 4 => "data",
        Err((4, place)) => {
            let offset = path.end + 4 + length_at(&met.message, path.end);
            if place == offset {
                "offset"
            } else {
                assert_eq!(place, offset + 8);
                "handle"
            }
        }
        Err(other) => panic!("{other:?}"),
    }
}

#[test]
fn every_outcome_in_every_way() {
    for op in OPS.into_iter().chain(["s"]) {
        let found: BTreeSet<&str> = old(op).iter().map(|(met, ..)| outcome(met)).collect();
        let wanted = match op {
            "s" => vec!["accepted", "data", "front", "handle"],
            _ => vec!["accepted", "data", "end", "front", "handle", "middle", "offset"],
        };
        assert!(found.into_iter().eq(wanted), "{op}");
    }
}

/// Data of no byte, of one byte, and of more, each accepted and truncated in
/// each field.
#[test]
fn every_outcome_of_every_length() {
    let mut found = BTreeSet::new();
    for (met, data, _) in old("q") {
        found.insert((data, outcome(&met)));
    }
    for data in [0, 1, 5, 40] {
        for wanted in ["accepted", "data", "offset", "handle"] {
            assert!(found.contains(&(data, wanted)), "{data} {wanted}");
        }
    }
}

/// Accepted from so many bytes behind on as the upper half of the offset says,
/// and four more.
#[test]
fn bytes_behind_decide() {
    for op in OPS {
        let (mut first, mut last) = (BTreeSet::new(), BTreeSet::new());
        for (met, data, behind) in old(op) {
            let length = length_at(&met.message, 9 + data);
            let malformed = matches!(met.read, Err((5, _)));
            assert!(malformed || met.read.is_ok() == (behind >= length + 4));
            if !malformed && behind == length + 4 {
                first.insert(length);
            } else if !malformed && behind + 1 == length + 4 {
                last.insert(length);
            }
        }
        for length in [0, 1, 4, 8, 11, 12, 13] {
            assert!(first.contains(&length) && last.contains(&length), "{op} {length}");
        }
    }
}

/// Malformed data is refused as a path both where well-formed data is accepted
/// and where it is truncated.
#[test]
fn malformed_data() {
    let mut found = BTreeSet::new();
    for (met, data, behind) in old("q") {
        if let Err((5, place)) = met.read {
            let short = length_at(&met.message, 9 + data) + 4 > behind;
            found.insert((met.message[place], outcome(&met), short));
        }
    }
    for first in BROKEN {
        for third in THIRDS {
            for short in [false, true] {
                assert!(found.contains(&(first, third, short)), "{first:02x} {third} {short}");
            }
        }
    }
}

/// One that is accepted up to its last byte, with every cut of it.
#[test]
fn every_cut() {
    let ends = |met: &Met| met.read.as_ref().is_ok_and(|write| write.known() == met.message.len());
    let all = old("q");
    let whole = all.iter().filter(|(met, data, _)| *data > 1 && ends(met)).map(|(met, ..)| met);
    assert!(cut_everywhere("q", whole));
}

/// 65,536 bytes with none, three and four bytes behind the handle, and one
/// byte more. All fields are zero.
#[test]
fn longest_messages() {
    for op in OPS {
        for (whole, data, place) in [
            (65_536, 65_511, Some((4, 65_532))),
            (65_536, 65_508, Some((4, 65_529))),
            (65_536, 65_507, None),
            (65_537, 65_508, Some((2, 0))),
        ] {
            let same = |met: &&Met| {
                met.message.len() == whole
                    && length_at(&met.message, 5) == data
                    && met.message[9..].iter().all(|byte| *byte == 0)
            };
            let all = fixed(op);
            let found: Vec<&Met> = all.iter().filter(same).collect();
            assert!(!found.is_empty(), "{op} {whole} {data}");
            assert!(found.iter().all(|met| met.read.as_ref().err().copied() == place));
        }
    }
}

/// Of ten thousand random requests at least 20 end where such a write ends;
/// about twice as many were counted.
#[test]
fn random_ones() {
    let fresh = Cases::fresh(61, "q").take(10_000).filter_map(|case| Met::new(&case));
    let ends =
        |met: &Met| run_at(&met.message, 5).is_ok_and(|run| run.end + 16 == met.message.len());
    let count = fresh.filter(ends).count();
    assert!(count >= 20, "{count}");
}

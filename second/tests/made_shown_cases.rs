//! The cases of op `s`: small, and with everything in them.

use std::cmp::Ordering;
use std::collections::BTreeSet;

use second::answer::{answer, LONGEST_SHOWN};
use second::make::case::Case;
use second::make::{fixed_list, Cases};
use second::methods::{METHODS, READDIR};
use second::names::Names;
use second::reply::{read_reply, Reply};
use second::request::{read_request, Request};

const REQUEST: u8 = 0;
const REPLY: u8 = 1;

const LONGEST_MESSAGE: usize = 300;

/// So many cases by a seed have every room for every reply.
const FRESH: usize = 20_000;

/// The committed cases have room for more than the fixed list.
const MOST_FIXED: usize = 700;

/// A case taken apart, and its answer.
struct Shown {
    side: u8,
    room: usize,
    message: Vec<u8>,
    line: String,
}

impl Shown {
    fn new(case: &Case) -> Shown {
        Shown {
            side: case.body[0],
            room: u32::from_be_bytes(case.body[1..5].try_into().unwrap()) as usize,
            message: case.body[5..].to_vec(),
            line: answer(case.op, &case.body).unwrap(),
        }
    }

    /// Count of the names, and the sum of their lengths.
    fn names(&self) -> (usize, usize) {
        let names = Names::open(&self.message);
        names.fold((0, 0), |(count, sum), name| (count + 1, sum + name.bytes.len()))
    }
}

/// The cases of one side, first of the fixed list, then by a seed.
fn both(side: u8) -> [Vec<Shown>; 2] {
    let fresh = Cases::fresh(31, "s").take(FRESH).collect();
    [fixed_list("s"), fresh].map(|cases: Vec<Case>| {
        cases.iter().map(Shown::new).filter(|shown| shown.side == side).collect()
    })
}

#[test]
fn cases_are_small() {
    assert!(fixed_list("s").len() <= MOST_FIXED);
    for shown in both(REQUEST).into_iter().chain(both(REPLY)).flatten() {
        assert!(shown.room <= LONGEST_SHOWN && shown.message.len() <= LONGEST_MESSAGE);
        let line = shown.line;
        assert!(!line.ends_with(' ') && !line.contains("  ") && !line.contains('\n'));
    }
}

#[test]
fn seeds_decide() {
    let framed = |seed| Cases::of(seed, "s").take(700).flat_map(|case| case.framed());
    assert!(framed(1).eq(framed(1)));
    assert!(framed(1).ne(framed(2)));
}

/// Each method meets an exact buffer, a larger one, one that is a byte too
/// short, and one of no bytes.
#[test]
fn requests_of_every_method_with_every_room() {
    for cases in both(REQUEST) {
        let mut found = BTreeSet::new();
        for shown in &cases {
            let Request::Known { method, known, .. } = read_request(&shown.message) else {
                continue;
            };
            let stored = shown.line.contains(&format!(" stored {known} "));
            assert_eq!(stored, shown.room >= known, "{}", shown.line);
            if shown.room == 0 {
                found.insert((method.number, "none"));
            } else if shown.room + 1 == known {
                found.insert((method.number, "one less"));
            } else if stored {
                let fit = if shown.room == known { "exact" } else { "larger" };
                found.insert((method.number, fit));
            }
        }
        assert_eq!(found.len(), 4 * METHODS.len());
    }
}

#[test]
fn requests_of_every_kind() {
    for cases in both(REQUEST) {
        let (mut refusals, mut bools) = (BTreeSet::new(), BTreeSet::new());
        let (mut unknown, mut behind, mut longest) = (0, 0, 0);
        for shown in &cases {
            match read_request(&shown.message) {
                Request::Known { method, known, .. } => {
                    behind += usize::from(shown.message.len() > known);
                    longest = longest.max(known);
                    if method.name == "fsync" {
                        bools.insert(shown.message[known - 9].min(2));
                    }
                }
                Request::Unknown { .. } => unknown += 1,
                Request::Refused(refusal) => {
                    refusals.insert(refusal.number);
                }
            }
        }
        assert!(refusals.into_iter().eq([1, 4, 5]));
        assert!(bools.into_iter().eq([0, 1, 2]));
        assert!(unknown >= 5 && behind >= 20 && longest > 100);
    }
}

/// The same for the replies that have a result: all but that to getcreds.
#[test]
fn replies_of_every_method_with_every_room() {
    for cases in both(REPLY) {
        let mut found = BTreeSet::new();
        for shown in &cases {
            let Reply::Success { method, known, .. } = read_reply(&shown.message) else {
                continue;
            };
            let stored = shown.line.contains(&format!(" stored {known} "));
            assert_eq!(stored, shown.room >= known, "{}", shown.line);
            if shown.room == 0 {
                found.insert((method.number, "none"));
            } else if shown.room + 1 == known {
                found.insert((method.number, "one less"));
            } else if stored {
                let fit = if shown.room == known { "exact" } else { "larger" };
                found.insert((method.number, fit));
            }
        }
        assert_eq!(found.len(), 4 * (METHODS.len() - 1));
    }
}

#[test]
fn replies_of_every_kind() {
    for cases in both(REPLY) {
        let (mut refusals, mut methods) = (BTreeSet::new(), BTreeSet::new());
        let (mut failures, mut credentials, mut unknown) = (0, 0, 0);
        for shown in &cases {
            match read_reply(&shown.message) {
                Reply::Success { method, .. } => {
                    methods.insert(method.number);
                }
                Reply::Failure { .. } => failures += 1,
                Reply::Credentials { .. } => credentials += 1,
                Reply::UnknownResponse { .. } => unknown += 1,
                Reply::Refused(refusal) => {
                    refusals.insert(refusal.number);
                }
            }
        }
        assert!(refusals.into_iter().eq([1, 3, 4, 5, 6]));
        // All but getcreds.
        assert_eq!(methods.len(), METHODS.len() - 1);
        assert!(failures >= 20 && credentials >= 3 && unknown >= 2);
    }
}

/// Up to 20 names, with room and without it: in the run, in the list of
/// lengths, in both.
#[test]
fn names_with_and_without_room() {
    for cases in both(REPLY) {
        let mut collected = BTreeSet::new();
        let mut without = BTreeSet::new();
        for shown in &cases {
            let Reply::Success { method, .. } = read_reply(&shown.message) else {
                continue;
            };
            if method.number != READDIR {
                continue;
            }
            let (count, sum) = shown.names();
            let fits = shown.room.cmp(&sum);
            if shown.line.contains(" end collected ") {
                assert!(count <= 16 && fits.is_ge());
                collected.insert((count, fits));
            } else {
                assert!(shown.line.contains(" end refused 7 at 0 "));
                assert!(count > 16 || fits.is_lt());
                without.insert((count, fits));
            }
        }
        for count in [1, 3, 15, 16] {
            assert!(collected.contains(&(count, Ordering::Equal)));
            assert!(collected.contains(&(count, Ordering::Greater)));
            assert!(without.contains(&(count, Ordering::Less)));
        }
        for count in [17, 20] {
            for fits in [Ordering::Less, Ordering::Equal, Ordering::Greater] {
                assert!(without.contains(&(count, fits)));
            }
        }
        assert!(collected.contains(&(0, Ordering::Equal)));
    }
}

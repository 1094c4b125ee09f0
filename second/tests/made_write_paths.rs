//! The cases with write requests: each answer is that of a reading by hand, and
//! the requests are of all sizes, and cut and damaged in all ways.

mod common;

use std::collections::{BTreeMap, BTreeSet};
use std::str::from_utf8;

use common::length_at;
use common::writes::{cut_everywhere, fixed, run_at, third, Met, Refused, BROKEN, OPS, THIRDS};
use second::make::Cases;

#[test]
fn every_answer_is_that_of_the_reading_by_hand() {
    for op in ["q", "f", "l", "g", "s"] {
        let fresh: Vec<Met> =
            Cases::fresh(51, op).take(8_000).filter_map(|case| Met::new(&case)).collect();
        for met in fixed(op).iter().chain(&fresh) {
            assert_eq!(met.line, met.wanted(), "{op}");
        }
        // Random ones are accepted, and refused with 4 and with 5.
        for number in [None, Some(4), Some(5)] {
            let told = |met: &&Met| met.read.as_ref().err().map(|refused| refused.0) == number;
            let count = fresh.iter().filter(told).count();
            assert!(count >= 10, "{op}: {count} with {number:?}");
        }
    }
}

/// The sizes of path and data by their lengths alone, where the message ends
/// with the handle.
fn sizes(message: &[u8]) -> Option<(usize, usize)> {
    let path = run_at(message, 5).ok()?;
    let data = run_at(message, path.end).ok()?;
    (data.end + 16 == message.len()).then_some((path.len(), data.len()))
}

/// By how many bytes the buffer is too short.
fn lacks(met: &Met) -> Option<usize> {
    met.bytes().len().checked_sub(met.room)
}

/// No byte and one byte of path and of data, with an exact buffer, and with
/// one byte less where any byte is stored.
#[test]
fn small_sizes_with_exact_buffers() {
    for op in OPS {
        let mut found = BTreeSet::new();
        for met in fixed(op) {
            found.insert((sizes(&met.message), lacks(&met)));
        }
        for sizes in [(0, 0), (0, 1), (1, 0), (1, 1)].map(Some) {
            assert!(found.contains(&(sizes, Some(0))), "{op} {sizes:?}");
            let one_less = found.contains(&(sizes, Some(1)));
            assert_eq!(one_less, ["l", "g"].contains(&op), "{op} {sizes:?}");
        }
    }
}

/// 65,536 bytes and one more: most of them path, most of them data, and many
/// of both. The buffer is exact, and one byte too short.
#[test]
fn longest_messages_with_exact_buffers() {
    for op in OPS {
        let mut found = BTreeSet::new();
        for met in fixed(op) {
            let whole = met.message.len();
            let (Some((path, data)), 65_536..) = (sizes(&met.message), whole) else { continue };
            assert_eq!(met.read.as_ref().err(), (whole > 65_536).then_some(&(2, 0)));
            let most = match (path, data) {
                (60_000.., _) => "path",
                (0..=1, _) => "data",
                _ => "both",
            };
            found.insert((whole, most, lacks(&met)));
        }
        let wanted: &[(usize, Option<usize>)] = match op {
            "q" => &[(65_536, Some(0)), (65_537, Some(0))],
            "f" => &[(65_536, Some(0)), (65_537, Some(0)), (65_537, Some(1))],
            "l" => &[(65_536, Some(0)), (65_536, Some(1)), (65_537, Some(0)), (65_537, Some(1))],
            // A message that is not accepted is not written.
            _ => &[(65_536, Some(0)), (65_536, Some(1)), (65_537, None)],
        };
        for (whole, lacks) in wanted {
            for most in ["path", "data", "both"] {
                assert!(found.contains(&(*whole, most, *lacks)), "{op} {whole} {most} {lacks:?}");
            }
        }
    }
}

/// A request with a path and data, whole and with every cut of it.
#[test]
fn every_cut() {
    for op in OPS {
        let both = |met: &&Met| sizes(&met.message).is_some_and(|(path, data)| path * data > 1);
        assert!(cut_everywhere(op, fixed(op).iter().filter(both)), "{op}");
    }
}

/// Bytes behind a request with a path and data, up to 65,536 in all and one
/// more.
#[test]
fn bytes_behind() {
    for op in OPS {
        let (mut behind, mut wholes) = (BTreeSet::new(), BTreeSet::new());
        for met in fixed(op) {
            let Ok(path) = run_at(&met.message, 5) else { continue };
            let Ok(data) = run_at(&met.message, path.end) else { continue };
            if path.len() > 1 && data.len() > 1 && data.end < 100 {
                behind.insert(met.message.len().checked_sub(data.end + 16));
                wholes.insert(met.message.len());
            }
        }
        let wanted = [0, 1, 3, 4, 8, 17, 300].map(Some);
        assert!(wanted.iter().all(|count| behind.contains(count)), "{op}");
        assert!([65_535, 65_536, 65_537].iter().all(|whole| wholes.contains(whole)), "{op}");
    }
}

/// Where a malformed path breaks, and what is wrong behind it.
fn damage(met: &Met) -> Option<(&'static str, &'static str)> {
    let third = third(met)?;
    let path = run_at(&met.message, 5).unwrap();
    let behind = met.message.len() - path.end;
    let wrong = match behind {
        0 => "nothing behind",
        1..4 => "length cut",
        _ => match length_at(&met.message, path.end) {
            length if length > 70_000 => "length lies",
            length if length > behind - 4 => "data cut",
            length if length + 16 > behind - 4 => "number cut",
            _ => "whole",
        },
    };
    Some((third, wrong))
}

#[test]
fn malformed_paths_in_front_of_damage() {
    for op in OPS {
        let found: BTreeSet<_> = fixed(op).iter().filter_map(damage).collect();
        for wrong in ["nothing behind", "length cut", "length lies", "data cut", "whole"] {
            for third in THIRDS {
                assert!(found.contains(&(third, wrong)), "{op} {third} {wrong}");
            }
        }
    }
}

/// Each broken character stands at each third of the path, with data behind it
/// that would be refused as well.
#[test]
fn every_broken_character_in_front_of_damage() {
    let mut found = BTreeSet::new();
    for met in fixed("q") {
        let (Some((third, wrong)), Err((_, place))) = (damage(&met), &met.read) else { continue };
        if wrong != "whole" {
            found.insert((third, met.message[*place]));
        }
    }
    for first in BROKEN {
        for third in THIRDS {
            assert!(found.contains(&(third, first)), "{third} {first:02x}");
        }
    }
}

/// A path that is cut off, though the bytes that are there are malformed; and
/// its length, which is cut off.
#[test]
fn cut_off_paths() {
    for op in OPS {
        let (mut paths, mut lengths) = (0, BTreeSet::new());
        for met in fixed(op) {
            match met.read {
                Err((4, 9)) => {
                    let error = from_utf8(&met.message[9..]).err();
                    paths += usize::from(error.is_some_and(|error| error.error_len().is_some()));
                }
                Err((4, 5)) => {
                    lengths.insert(met.message.len());
                }
                _ => {}
            }
        }
        assert!(paths >= 3, "{op}: {paths}");
        assert!(lengths.into_iter().eq(5..9), "{op}");
    }
}

/// The lengths that messages of the list have at this place instead of that of
/// a message, and how those are refused.
fn lies(all: &[Met], base: &Met, place: usize) -> BTreeMap<usize, Option<Refused>> {
    let same = |met: &&Met| {
        met.message.len() == base.message.len()
            && met.message[..place] == base.message[..place]
            && met.message[place + 4..] == base.message[place + 4..]
    };
    let told = |met: &Met| (length_at(&met.message, place), met.read.clone().err());
    all.iter().filter(same).map(told).collect()
}

/// Every length of path and data from 0 to one more than fits, and lengths that
/// are far too long or wrap.
#[test]
fn lying_lengths() {
    for op in OPS {
        let all = fixed(op);
        let both = |base: &Met| {
            let data = base.read.as_ref().ok()?.data.start - 4;
            let found = [5, data].map(|place| (place + 4, lies(&all, base, place)));
            found.iter().all(|(_, lies)| lies.len() > 15).then_some((base.message.len(), found))
        };
        let (whole, found) = all.iter().find_map(both).expect(op);
        for (start, lies) in found {
            let left = whole - start;
            for length in [0xffff_ffff, 0x7fff_ffff, 0x8000_0000, left + 1, (1 << 32) - start] {
                assert_eq!(lies[&length], Some((4, start)), "{op} {length:x}");
            }
            assert!((0..=left + 1).all(|length| lies.contains_key(&length)), "{op}");
            // Some others than the true one are accepted, with other fields.
            let accepted = lies.values().filter(|refused| refused.is_none()).count();
            assert!(accepted > 2, "{op} {start}: {accepted}");
        }
    }
}

#[test]
fn data_that_is_no_text() {
    for op in OPS.into_iter().chain(["s"]) {
        let mut found = BTreeSet::new();
        for met in fixed(op) {
            if let Ok(write) = &met.read {
                let data = &met.message[write.data.clone()];
                if from_utf8(data).is_err() {
                    found.insert(data.to_vec());
                }
            }
        }
        assert!(found.len() >= if op == "s" { 1 } else { 8 }, "{op}: {}", found.len());
    }
}

/// The ops of small programs show a path and data, each alone and both, and
/// malformed paths with damage behind them.
#[test]
fn shown_requests() {
    let mut found = BTreeSet::new();
    for met in fixed("s").iter().filter(|met| met.read.is_ok()) {
        let write = met.read.as_ref().unwrap();
        found.insert((write.path.is_empty(), write.data.is_empty(), lacks(met)));
    }
    for lacks in [0, 1].map(Some) {
        assert!(found.contains(&(false, false, lacks)));
    }
    assert!(found.contains(&(true, false, Some(0))) && found.contains(&(true, true, Some(0))));
    let wrong: BTreeSet<_> = fixed("s").iter().filter_map(damage).map(|pair| pair.1).collect();
    assert!(wrong.len() >= 5, "{wrong:?}");
}

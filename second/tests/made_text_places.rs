//! The cases with malformed texts: each answer has the place that the standard
//! library gives, and the texts break at all places and in all strings.

mod common;

use std::collections::BTreeSet;
use std::str::from_utf8;

use common::length_at;
use common::strings::{malformed, message_of, strings, Malformed, Side};
use common::tables::{table, Called};
use second::answer::answer;
use second::hash::hash;
use second::make::case::Case;
use second::make::{fixed_list, Cases};

/// A message that a reader gets, and what is answered.
struct Met {
    side: Side,
    message: Vec<u8>,
    told: String,
}

impl Met {
    fn malformed(&self) -> Option<Malformed> {
        malformed(self.side, &self.message)
    }
}

/// The messages of a case. A table that is not sound does not look at its.
fn met(case: &Case) -> Vec<Met> {
    let Some((side, message)) = message_of(case) else {
        return arrived(case);
    };
    vec![Met { side, message, told: answer(case.op, &case.body).unwrap() }]
}

fn arrived(case: &Case) -> Vec<Met> {
    let mut found = Vec::new();
    for told in table(case).told {
        if let (Called::Arrive(message), false) = (told.call, told.words == "refused 20 at 0") {
            found.push(Met { side: Side::Reply, message, told: told.words });
        }
    }
    found
}

fn fixed(op: &str) -> Vec<Met> {
    fixed_list(op).iter().flat_map(met).collect()
}

/// The malformed ones of the fixed list.
fn broken(op: &str) -> Vec<(Met, Malformed)> {
    let broken = |met: Met| met.malformed().map(|malformed| (met, malformed));
    fixed(op).into_iter().filter_map(broken).collect()
}

/// Whether the answer tells refusal 5, and where.
fn told_place(met: &Met) -> Option<usize> {
    let (_, told) = met.told.split_once("refused 5 at ")?;
    told.split([' ', '|']).next().unwrap().parse().ok()
}

#[test]
fn every_answer_has_the_place() {
    for op in ["q", "p", "l", "g", "t", "o"] {
        let fresh = Cases::fresh(41, op).take(4_000);
        let mut count = 0;
        for met in fixed_list(op).into_iter().chain(fresh).flat_map(|case| met(&case)) {
            let wanted = met.malformed().map(|malformed| malformed.place());
            // A listing without room does not tell the message's refusal.
            if op != "l" || !met.told.starts_with("refused 7 ") {
                assert_eq!(told_place(&met), wanted, "{op} {}", met.told);
                count += usize::from(wanted.is_some());
            }
        }
        assert!(count > 60, "{op}: {count}");
    }
}

/// The front's answer does not depend on the place, and no part is shown.
#[test]
fn the_front_and_the_parts_tell_no_place() {
    for (met, _) in broken("f") {
        let failure = [&met.message[..4], &[met.message[4] + 0x80], b"\xff\xff\xff\xea"].concat();
        let stored = met.told.starts_with(&format!("stored 9 {} ", hash(&failure)));
        assert!(stored || met.told.starts_with("refused 7 at 0 "));
    }
    for (met, _) in broken("s") {
        let none = if met.side == Side::Request {
            "request 0:0 0:0 0:0 0:0 0:0 0:0"
        } else {
            "reply 0:0 0:0 0:0 end"
        };
        assert_eq!(met.told, none);
    }
}

#[test]
fn writers_have_place_0() {
    for op in ["w", "r", "d", "c"] {
        let lines = fixed_list(op).into_iter().map(|case| answer(case.op, &case.body).unwrap());
        let refused: Vec<String> = lines.filter(|line| line.starts_with("refused 5 ")).collect();
        assert!(refused.len() > 50);
        assert!(refused.iter().all(|line| line.starts_with("refused 5 at 0 ")));
    }
}

/// A text breaks at each place of a path of 12 bytes, and behind it, through
/// each way that tells the place.
#[test]
fn every_place_of_a_path() {
    for op in ["q", "p", "l", "g", "t"] {
        let mut offsets = BTreeSet::new();
        for (met, malformed) in broken(op) {
            if malformed.string.len() > 12 && malformed.string.len() <= 16 {
                offsets.insert((met.side, malformed.offset()));
            }
        }
        for side in BTreeSet::from_iter(offsets.iter().map(|(side, _)| *side)) {
            assert!((0..=12).all(|offset| offsets.contains(&(side, offset))), "{op} {side:?}");
        }
    }
}

/// The bytes with which no character goes on: a lone continuation byte, and
/// first bytes that are broken behind each number of bytes.
#[test]
fn every_broken_character() {
    for op in ["q", "p", "t", "o"] {
        let mut found = BTreeSet::new();
        for (met, malformed) in broken(op) {
            let left = &met.message[malformed.place()..malformed.string.end];
            found.insert((left[0], malformed.error.error_len()));
        }
        let wanted = [
            (0x80, Some(1)),
            (0xc0, Some(1)),
            (0xff, Some(1)),
            (0xc3, Some(1)),
            (0xc3, None),
            (0xe2, Some(2)),
            (0xe2, None),
            (0xed, Some(1)),
            (0xf4, Some(1)),
            (0xf0, Some(3)),
            (0xf0, None),
        ];
        assert!(wanted.iter().all(|broken| found.contains(broken)), "{op}");
    }
}

/// The last two characters before the broken one, by their lengths, and the
/// case that all four lengths stand before it.
#[test]
fn behind_characters_of_every_length() {
    for op in ["q", "p", "t"] {
        let (mut pairs, mut all) = (BTreeSet::new(), 0);
        for (met, malformed) in broken(op) {
            let before = &met.message[malformed.string.start..malformed.place()];
            let lengths: Vec<usize> =
                from_utf8(before).unwrap().chars().map(char::len_utf8).collect();
            let last: Vec<usize> = lengths.iter().rev().take(2).copied().collect();
            pairs.insert(last);
            all += usize::from((1..=4).all(|length| lengths.contains(&length)));
        }
        // None, four single ones, and of each length behind at least three.
        assert!((1..=4).all(|length| pairs.contains(&vec![length])), "{op}");
        assert!(pairs.len() >= 1 + 4 + 4 * 3 && all >= 1, "{op}: {pairs:?} {all}");
    }
}

/// The length of the character that begins with this byte.
fn width(first: u8) -> usize {
    match first {
        0xc0..=0xdf => 2,
        0xe0..=0xef => 3,
        _ => 4,
    }
}

/// Characters broken off at the end of a string, which the bytes behind the
/// string would complete: as the end of the known part, as a number, as the
/// length of the next text or name, or of data.
#[test]
fn broken_off_before_continuation_bytes() {
    let cuts = BTreeSet::from([(2, 1), (3, 1), (3, 2), (4, 1), (4, 2), (4, 3)]);
    for op in ["q", "p", "l", "g", "t", "o"] {
        let (mut found, mut types) = (BTreeSet::new(), BTreeSet::new());
        for (met, malformed) in broken(op) {
            let (place, end) = (malformed.place(), malformed.string.end);
            let width = width(met.message[place]);
            let whole = met.message.get(place..place + width);
            if malformed.error.error_len().is_none() && whole.is_some_and(|w| from_utf8(w).is_ok())
            {
                found.insert((width, end - place));
                types.insert((met.message[4], malformed.nth));
            }
        }
        assert_eq!(found, cuts, "{op}");
        let wanted: &[(u8, usize)] = match op {
            "q" => &[(0x0f, 0), (0x01, 0), (0x07, 0), (0x06, 0), (0x06, 1), (0x04, 1), (0x11, 0)],
            "p" | "t" | "o" => &[(0x83, 0), (0x97, 0), (0x93, 0), (0x93, 1)],
            _ => &[],
        };
        assert!(wanted.iter().all(|text| types.contains(text)), "{op}: {types:02x?}");
    }
}

/// Every text of every request: the type, and which of its texts.
#[test]
fn every_string_of_every_request() {
    let found: BTreeSet<(u8, usize)> =
        broken("q").iter().map(|(met, malformed)| (met.message[4], malformed.nth)).collect();
    let mut wanted = BTreeSet::from([(0x04, 1), (0x05, 1), (0x06, 1)]);
    wanted.extend((0x01..=0x16).map(|kind| (kind, 0)));
    assert_eq!(found, wanted);
}

#[test]
fn second_texts_behind_first_ones() {
    let (mut lengths, mut both, mut truncated) =
        (BTreeSet::new(), BTreeSet::new(), BTreeSet::new());
    for (met, malformed) in broken("q") {
        let kind = met.message[4];
        let found = strings(met.side, &met.message);
        if malformed.nth == 1 {
            lengths.insert((kind, found[0].len()));
        } else if let (0x04..=0x06, Some(second)) = (kind, found.get(1)) {
            if from_utf8(&met.message[second.clone()]).is_err() {
                both.insert(kind);
            }
        } else if (0x04..=0x06).contains(&kind) {
            truncated.insert(kind);
        }
    }
    for kind in 0x04..=0x06 {
        assert!([0, 1, 4, 5, 21].iter().all(|length| lengths.contains(&(kind, *length))));
        assert!(both.contains(&kind) && truncated.contains(&kind));
    }
}

/// A malformed name is the first to the last of its list, with a truncated one
/// behind it, with a malformed one behind it, and behind many names.
#[test]
fn every_name() {
    for op in ["p", "t"] {
        let mut found = BTreeSet::new();
        let (mut truncated, mut both) = (BTreeSet::new(), BTreeSet::new());
        for (met, malformed) in broken(op).into_iter().filter(|(met, _)| met.message[4] == 0x93) {
            let count = length_at(&met.message, 9);
            let names = strings(met.side, &met.message);
            found.insert((malformed.nth, count, malformed.offset().min(1)));
            if names.len() < count {
                truncated.insert(malformed.nth);
            }
            let behind = names.get(malformed.nth + 1).map(|name| &met.message[name.clone()]);
            if behind.is_some_and(|name| from_utf8(name).is_err()) {
                both.insert(malformed.nth);
            }
        }
        for nth in 0..5 {
            assert!([0, 1].iter().all(|inside| found.contains(&(nth, 5, *inside))), "{op} {nth}");
        }
        if op == "p" {
            assert!((0..4).all(|nth| truncated.contains(&nth) && both.contains(&nth)));
            assert!(found.contains(&(200, 201, 1)) && found.contains(&(1_000, 1_001, 1)));
        }
    }
    assert!(broken("p").iter().any(|(met, _)| met.message[4] == 0x83));
    assert!(broken("p").iter().any(|(met, _)| met.message[4] == 0x97));
}

/// One bad byte in 4,000, in texts of characters of each length: in the first
/// character, in the middle and in the last one.
#[test]
fn long_texts() {
    for op in ["q", "p", "t"] {
        let mut found = BTreeSet::new();
        for (met, malformed) in broken(op) {
            let string = malformed.string.clone();
            if (3_999..=4_000).contains(&string.len()) {
                // Behind the bad byte or before it there is a good character.
                let good = if malformed.offset() == 0 { string.end - 1 } else { string.start };
                let length = character_around(&met.message, good);
                let (offset, half) = (malformed.offset(), string.len() / 2);
                let third = if offset == 0 {
                    "front"
                } else if offset.abs_diff(half) < length {
                    "middle"
                } else {
                    assert_eq!(offset + length, string.len());
                    "end"
                };
                found.insert((length, third));
            }
        }
        assert_eq!(found.len(), 4 * 3, "{op}: {found:?}");
    }
}

/// The length of the character that has a byte at this place.
fn character_around(message: &[u8], at: usize) -> usize {
    let first = (0..=at).rev().find(|at| !(0x80..=0xbf).contains(&message[*at])).unwrap();
    match message[first] {
        0x00..=0x7f => 1,
        byte => width(byte),
    }
}

/// Random texts break behind several whole characters, and at the end of the
/// string: in so many of a thousand messages, about half of what was measured.
#[test]
fn random_texts_break_late() {
    for (op, least) in [("q", 15), ("p", 6), ("l", 15), ("g", 10), ("t", 4), ("o", 4)] {
        let fresh: Vec<Met> =
            Cases::fresh(43, op).take(4_000).flat_map(|case| met(&case)).collect();
        let (mut late, mut last) = (0, 0);
        for met in &fresh {
            let Some(malformed) = met.malformed() else { continue };
            let before = &met.message[malformed.string.start..malformed.place()];
            late += usize::from(from_utf8(before).unwrap().chars().count() >= 5);
            last += usize::from(malformed.error.error_len().is_none());
        }
        let (late, last) = (late * 1_000 / fresh.len(), last * 1_000 / fresh.len());
        assert!(late >= least && last >= least / 2, "{op}: {late} and {last} of a thousand");
    }
}

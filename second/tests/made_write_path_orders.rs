//! The cases of the writer of write requests: each answer follows from path,
//! data and room, and all pairs of causes are there.

mod common;

use std::collections::BTreeSet;
use std::str::from_utf8;

use common::lent;
use common::tables::Bytes;
use second::answer::{answer, MOST_BYTES};
use second::hash::hash;
use second::make::case::Case;
use second::make::{fixed_list, Cases};

/// A case taken apart, with its answer. `start` is the header, and `numbers`
/// are offset and handle.
struct Written {
    room: usize,
    start: Vec<u8>,
    path: Vec<u8>,
    data: Vec<u8>,
    numbers: Vec<u8>,
    line: String,
}

impl Written {
    /// Nothing for the writers of other methods.
    fn new(case: &Case) -> Option<Written> {
        let mut body = Bytes(&case.body);
        let room = body.number(4) as usize;
        let start = body.take(5).to_vec();
        if start[4] != 0x11 {
            return None;
        }
        let (path, data) = (body.run(), body.run());
        let line = answer(case.op, &case.body).unwrap();
        Some(Written { room, start, path, data, numbers: body.0.to_vec(), line })
    }

    fn malformed(&self) -> bool {
        from_utf8(&self.path).is_err()
    }

    fn whole(&self) -> usize {
        29 + self.path.len() + self.data.len()
    }

    fn too_long(&self) -> bool {
        self.whole() > 65_536
    }

    fn without_room(&self) -> bool {
        self.whole() > self.room
    }

    fn message(&self) -> Vec<u8> {
        let length = |run: &[u8]| (run.len() as u32).to_be_bytes();
        let path = [&length(&self.path)[..], &self.path].concat();
        let data = [&length(&self.data)[..], &self.data].concat();
        [&self.start, &path, &data, &self.numbers].map(|part| &part[..]).concat()
    }

    /// The answer as it has to be.
    fn wanted(&self) -> String {
        let buffer = lent(self.room);
        let number = match (self.malformed(), self.too_long(), self.without_room()) {
            (true, _, _) => 5,
            (_, true, _) => 2,
            (_, _, true) => 7,
            _ => {
                let rest = hash(&buffer[self.whole()..]);
                return format!("stored {} {} {rest}", self.whole(), hash(&self.message()));
            }
        };
        format!("refused {number} at 0 {}", hash(&buffer))
    }
}

fn fixed() -> Vec<Written> {
    fixed_list("w").iter().filter_map(Written::new).collect()
}

#[test]
fn every_answer_follows() {
    let fresh: Vec<Written> =
        Cases::fresh(71, "w").take(8_000).filter_map(|case| Written::new(&case)).collect();
    assert!(fresh.len() > 200);
    for written in fixed().iter().chain(&fresh) {
        assert_eq!(written.line, written.wanted());
    }
}

#[test]
fn every_pair_of_causes() {
    let all = fixed();
    let found: BTreeSet<[bool; 3]> = all
        .iter()
        .map(|written| [written.malformed(), written.too_long(), written.without_room()])
        .collect();
    assert_eq!(found.len(), 8);
}

/// Too long by the path, by the data, and only by both together. The path is
/// well-formed, and malformed at its front, in its middle and at its end.
#[test]
fn too_long_in_every_way() {
    let mut found = BTreeSet::new();
    for written in fixed().iter().filter(|written| written.too_long()) {
        let most = match (written.path.len(), written.data.len()) {
            (65_508.., 65_508..) => "each",
            (65_508.., _) => "path",
            (_, 65_508..) => "data",
            _ => "together",
        };
        found.insert((most, written.malformed()));
    }
    for most in ["each", "path", "data", "together"] {
        assert!(found.contains(&(most, false)), "{most}");
    }
    assert!(found.contains(&("path", true)) && found.contains(&("data", true)));
    let thirds: BTreeSet<usize> = fixed()
        .iter()
        .filter_map(|written| Some(from_utf8(&written.path).err()?.valid_up_to()))
        .collect();
    assert!([0, 6, 12].iter().all(|place| thirds.contains(place)), "{thirds:?}");
}

/// Exactly 65,536 bytes, with the room in the path, in the data and in both;
/// the buffer is exact, one byte too short, and larger.
#[test]
fn longest_messages() {
    let mut found = BTreeSet::new();
    for written in fixed() {
        found.insert((written.whole(), written.path.len(), written.room));
    }
    for whole in [65_536, 65_537] {
        for path in [0, 1, (whole - 29) / 2, whole - 30, whole - 29] {
            for room in [whole, whole - 1, MOST_BYTES] {
                assert!(found.contains(&(whole, path, room)), "{whole} {path} {room}");
            }
        }
    }
    assert!(fixed()
        .iter()
        .any(|written| (written.path.len(), written.data.len()) == (MOST_BYTES, MOST_BYTES)));
}

/// No byte and one byte, and data that is no text.
#[test]
fn small_ones() {
    let (mut sizes, mut data) = (BTreeSet::new(), BTreeSet::new());
    for written in fixed() {
        let lacks = written.whole().checked_sub(written.room);
        sizes.insert((written.path.len(), written.data.len(), lacks));
        if written.line.starts_with("stored ") && from_utf8(&written.data).is_err() {
            data.insert(written.data);
        }
    }
    for (path, size) in [(0, 0), (0, 1), (1, 0), (1, 1)] {
        for lacks in [0, 1].map(Some) {
            assert!(sizes.contains(&(path, size, lacks)), "{path} {size} {lacks:?}");
        }
    }
    assert!(data.len() >= 8);
}

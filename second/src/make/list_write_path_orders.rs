//! The writer of write requests: sizes of path and data together, and the
//! order of its refusals.

use crate::answer::MOST_BYTES;
use crate::make::case::{Case, Filled};
use crate::make::list_text_places::inserted;
use crate::make::list_write_paths::PLACES;
use crate::make::strings::BROKEN;
use crate::make::writes::{writer, AROUND};
use crate::refusal::LONGEST;

/// Paths and data that are too long only together, or each for itself. Some
/// sums are small in 16 or in 17 bits.
const TOO_LONG: [(usize, usize); 11] = [
    (MOST_BYTES, MOST_BYTES),
    (MOST_BYTES, 0),
    (0, MOST_BYTES),
    (LONGEST, 0),
    (0, LONGEST),
    (1, LONGEST - 1),
    (LONGEST - 1, 1),
    (LONGEST / 2, LONGEST / 2),
    (40_000, 40_000),
    (LONGEST, LONGEST - AROUND),
    (LONGEST, LONGEST),
];

pub fn add(out: &mut Vec<Case>) {
    add_longest(out);
    for (path, data) in TOO_LONG {
        for room in [0, MOST_BYTES] {
            out.push(sized(room, path, data));
        }
    }
    for broken in BROKEN {
        for place in PLACES {
            add_malformed(out, &inserted(broken)[place]);
        }
    }
}

fn sized(room: usize, path: usize, data: usize) -> Case {
    writer(room, &Filled::padded(b"/", path, b'p'), &Filled::padded(b"", data, 0xff))
}

/// Exactly 65,536 bytes and one more, in the path, in the data, and in both.
fn add_longest(out: &mut Vec<Case>) {
    for whole in [LONGEST, LONGEST + 1] {
        let runs = whole - AROUND;
        for path in [0, 1, runs / 2, runs - 1, runs] {
            for room in [whole, whole - 1, MOST_BYTES] {
                out.push(sized(room, path, runs - path));
            }
        }
    }
}

/// A malformed path alone, without room, in front of data that is too long,
/// and too long itself.
fn add_malformed(out: &mut Vec<Case>, path: &[u8]) {
    let data = Filled::exact(b"data");
    let (path, long) = (Filled::exact(path), Filled::padded(path, MOST_BYTES, b'p'));
    out.push(writer(path.whole + data.whole + AROUND, &path, &data));
    out.push(writer(0, &path, &data));
    out.push(writer(MOST_BYTES, &path, &Filled::padded(b"", LONGEST, b'd')));
    out.push(writer(0, &long, &data));
}

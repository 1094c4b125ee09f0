//! Write requests with a path: sizes, cuts, bytes behind, malformed paths and
//! lengths that lie.

use crate::make::case::{read, shown, Case, Filled, Side};
use crate::make::list_lengths::{lies, with_length};
use crate::make::list_text_long::shortened;
use crate::make::list_text_places::inserted;
use crate::make::put::Draft;
use crate::make::strings::BROKEN;
use crate::make::writes::{
    add_every_way, add_exact, add_in_turn, old_draft, write_draft, write_with, writer, AROUND,
};
use crate::refusal::LONGEST;

/// A path with characters of one, two and three bytes, and data that is no text.
const PATH: &str = "/\u{e9}\u{20ac}";
const DATA: &[u8] = b"\xff\x80d";

/// A path of so many bytes leaves most of the longest message to the data.
const LONG_PATH: usize = 4_000;

/// The places at which a broken character is put into a path: its front, its
/// middle, and its end.
pub const PLACES: [usize; 3] = [0, 6, 12];

pub fn add(out: &mut Vec<Case>) {
    add_sizes(out);
    add_longest(out);
    add_cuts(out);
    add_behind(out);
    add_malformed(out);
    add_cut_off(out);
    add_lies(out);
    add_data(out);
    add_shown(out);
}

/// No byte and one byte of path and of data.
fn add_sizes(out: &mut Vec<Case>) {
    for path in [&b""[..], b"/"] {
        for data in [&b""[..], b"\xff"] {
            let message = write_draft(path, data).whole();
            add_exact(out, &message);
            for room in [message.whole, message.whole - 1] {
                out.push(writer(room, &Filled::exact(path), &Filled::exact(data)));
            }
        }
    }
}

/// Messages of 65,536 bytes and of one more. The room is in the path, in the
/// data, and in both.
fn add_longest(out: &mut Vec<Case>) {
    for whole in [LONGEST, LONGEST + 1] {
        let room = whole - AROUND;
        for path in [0, 1, LONG_PATH, room] {
            add_exact(out, &long_write(path, room - path));
        }
        out.push(read(Side::Request, &long_write(room / 2, room - room / 2)));
    }
}

/// Path and data of these sizes. The end of the message is of equal bytes.
fn long_write(path: usize, data: usize) -> Filled {
    let fill = if data == 0 { 0 } else { b'd' };
    let number = u64::from_be_bytes([fill; 8]);
    let (path, data) = (Filled::padded(b"/", path, 0), Filled::padded(b"", data, fill));
    shortened(write_with(&path, &data, [number; 2]).whole())
}

fn sample() -> Draft {
    write_draft(PATH.as_bytes(), DATA)
}

/// The first bytes of a message.
fn cut(draft: &Draft, length: usize) -> Filled {
    Filled::exact(&draft.bytes[..length])
}

/// Every cut, from no byte on, and the whole message.
fn add_cuts(out: &mut Vec<Case>) {
    let draft = sample();
    for length in 0..=draft.bytes.len() {
        add_every_way(out, &cut(&draft, length));
    }
}

/// Bytes behind the known part, up to the greatest length and one more.
fn add_behind(out: &mut Vec<Case>) {
    let bytes = sample().bytes;
    for (behind, fill) in [(1, 0xff), (3, 0x80), (4, 0x00), (8, 0x7f), (17, b'/'), (300, 0x00)] {
        add_every_way(out, &Filled::padded(&bytes, bytes.len() + behind, fill));
    }
    for whole in [LONGEST - 1, LONGEST, LONGEST + 1] {
        add_every_way(out, &Filled::padded(&bytes, whole, 0xff));
    }
}

/// A malformed path in front of data that is whole, that is too long, that is
/// cut in its bytes or in its length, and that is missing.
fn damaged(path: &[u8]) -> [Filled; 5] {
    let draft = write_draft(path, DATA);
    let data = draft.lengths[1];
    [
        draft.whole(),
        with_length(&draft, data, u32::MAX),
        cut(&draft, data + 5),
        cut(&draft, data + 3),
        cut(&draft, data),
    ]
}

/// The path is refused, whatever follows it.
fn add_malformed(out: &mut Vec<Case>) {
    let mut messages = Vec::new();
    for place in PLACES {
        for broken in BROKEN {
            messages.extend(damaged(&inserted(broken)[place]));
        }
    }
    add_in_turn(out, &messages);
}

/// A path that is cut off is truncated, though what is there is malformed.
fn add_cut_off(out: &mut Vec<Case>) {
    let mut messages = Vec::new();
    for broken in BROKEN {
        let draft = write_draft(&inserted(broken)[PLACES[1]], DATA);
        let [length, end] = draft.lengths[..] else { panic!("a path and data") };
        let start = length + 4;
        let cuts = [length, start - 1, start, start + PLACES[1] + 1, end - 1];
        messages.extend(cuts.map(|at| cut(&draft, at)));
    }
    add_in_turn(out, &messages);
}

/// Every length of path and data that fits, one more, and far too long ones.
/// What follows a path that is too short or too long is read as a length.
fn add_lies(out: &mut Vec<Case>) {
    let runs = [b"/p\0\0\0\x02", &b"\0\0\0\x01d"[..]].map(Filled::exact);
    let draft = write_with(&runs[0], &runs[1], [2 << 32 | 1, 0]);
    for place in &draft.lengths {
        let left = draft.bytes.len() - (place + 4);
        for length in (0..=left as u32).chain(lies(&draft, *place)) {
            add_every_way(out, &with_length(&draft, *place, length));
        }
    }
}

/// Data is bytes: it need not be text.
fn add_data(out: &mut Vec<Case>) {
    for data in BROKEN {
        let message = write_draft(b"/", data).whole();
        add_every_way(out, &message);
        out.push(writer(message.whole, &Filled::exact(b"/"), &Filled::exact(data)));
    }
}

/// The same for the op of small programs, some of each.
fn add_shown(out: &mut Vec<Case>) {
    let whole = sample().whole();
    let malformed = &inserted(BROKEN[4])[PLACES[1]];
    let mut messages = vec![whole.clone(), write_draft(b"", b"d").whole()];
    messages.extend(damaged(malformed));
    for (data, offset) in [(&b"old"[..], 0), (b"old", u64::MAX), (b"", 1), (b"\xff", 0)] {
        let old = old_draft(data, offset).bytes;
        messages.push(Filled::padded(&old, old.len() + 4, 0));
        messages.push(Filled::exact(&old));
    }
    for message in messages {
        out.push(shown(Side::Request, message.whole, &message.bytes()));
    }
    out.push(shown(Side::Request, whole.whole - 1, &whole.bytes()));
}

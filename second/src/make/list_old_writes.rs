//! Write requests in the page's row, without a path. Their data is read as the
//! path, and the upper half of their offset as the length of the data.

use crate::make::case::{Case, Filled};
use crate::make::list_text_places::inserted;
use crate::make::list_write_paths::PLACES;
use crate::make::strings::BROKEN;
use crate::make::writes::{add_every_way, add_in_turn, old_draft, old_row, AROUND};
use crate::refusal::LONGEST;
use crate::store::{header, push};

/// Data that is well-formed as a path.
const TEXTS: [&str; 4] = ["", "a", "\u{e9}\u{20ac}", "/jobs/plant-20/fares/encoder-7/card.data"];

/// Upper halves of the offset. Its lower half and the handle, of 12 bytes
/// together, stand behind.
const LENGTHS: [usize; 7] = [0, 1, 4, 8, 11, 12, 13];
const TOO_LONG: [u32; 3] = [0x7fff_ffff, 0x8000_0000, 0xffff_ffff];
const LOWER_HALF: u64 = 0x2526_2728;

/// The bytes of the length that the page's row does not have.
const MISSING: usize = 4;

/// More bytes behind the message than any of the lengths needs.
const MANY: usize = 40;

pub fn add(out: &mut Vec<Case>) {
    add_offsets(out);
    add_malformed(out);
    add_cuts(out);
    add_longest(out);
}

/// A message with so many bytes behind it.
fn old_write(data: &[u8], upper_half: u32, behind: usize) -> Filled {
    let bytes = old_draft(data, u64::from(upper_half) << 32 | LOWER_HALF).bytes;
    Filled::padded(&bytes, bytes.len() + behind, 0xfe)
}

/// Accepted where enough bytes stand behind; otherwise refused in the data, in
/// the offset or in the handle.
fn add_offsets(out: &mut Vec<Case>) {
    let mut pairs: Vec<(u32, usize)> = TOO_LONG.map(|length| (length, MANY)).to_vec();
    for length in LENGTHS {
        let enough = length + MISSING;
        pairs.extend([0, enough - 1, enough, enough + 1, MANY].map(|more| (length as u32, more)));
    }
    let mut messages = Vec::new();
    for (length, behind) in pairs {
        messages.extend(TEXTS.map(|text| old_write(text.as_bytes(), length, behind)));
    }
    add_in_turn(out, &messages);
}

/// Malformed data, where well-formed data is accepted and where it is not.
fn add_malformed(out: &mut Vec<Case>) {
    let mut messages = Vec::new();
    for place in PLACES {
        for broken in BROKEN {
            let data = &inserted(broken)[place];
            messages.extend([old_write(data, 0, MISSING), old_write(data, u32::MAX, 0)]);
        }
    }
    add_in_turn(out, &messages);
}

/// Every cut of a message that is accepted up to its last byte.
fn add_cuts(out: &mut Vec<Case>) {
    let whole = old_write(b"ab", 2, 2 + MISSING);
    let cut = |length| Filled { whole: length, ..whole.clone() };
    add_in_turn(out, &(0..=whole.whole).map(cut).collect::<Vec<_>>());
}

/// Data that fills a message of 65,536 bytes, or of one more, but for so many
/// bytes behind. All its bytes and numbers are zero.
fn add_longest(out: &mut Vec<Case>) {
    for (whole, behind) in
        [(LONGEST, 0), (LONGEST, MISSING - 1), (LONGEST, MISSING), (LONGEST + 1, MISSING)]
    {
        let mut prefix = header(1, old_row().number);
        push(&mut prefix, 4, (whole - behind - (AROUND - MISSING)) as u64);
        add_every_way(out, &Filled::padded(&prefix, whole, 0));
    }
}

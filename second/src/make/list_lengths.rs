//! Lengths and counts that lie.

use crate::make::case::{front, read, Case, Filled, Side};
use crate::make::put::{side_draft, Draft};
use crate::make::styles::{id, puts, Style};
use crate::methods::METHODS;
use crate::store::{header, push};

pub fn add(out: &mut Vec<Case>) {
    for method in &METHODS {
        for (side, fields) in [(Side::Request, method.request), (Side::Reply, method.reply)] {
            let puts = puts(fields, Style::Counting);
            add_lies(out, side, &side_draft(side, method, id(Style::Counting), &puts));
        }
    }
    add_counts(out);
}

/// The length or count that stands at a place of the message.
fn length_at(draft: &Draft, place: usize) -> u32 {
    u32::from_be_bytes(draft.bytes[place..place + 4].try_into().unwrap())
}

/// The message with another length or count at that place.
pub fn with_length(draft: &Draft, place: usize, length: u32) -> Filled {
    let mut bytes = draft.bytes.clone();
    bytes[place..place + 4].copy_from_slice(&length.to_be_bytes());
    Filled::exact(&bytes)
}

/// The lies for the length or count at that place.
pub fn lies(draft: &Draft, place: usize) -> Vec<u32> {
    let true_one = length_at(draft, place);
    let start = place as u32 + 4;
    let left = draft.bytes.len() as u32 - start;
    vec![
        0,
        true_one.wrapping_sub(1),
        true_one + 1,
        left,
        left + 1,
        0x4000_0000,
        0x7fff_ffff,
        0x8000_0000,
        0xffff_fffe,
        0xffff_ffff,
        // These wrap in 32 bits when added to the place.
        0u32.wrapping_sub(start),
        0u32.wrapping_sub(start).wrapping_add(left),
    ]
}

fn add_lies(out: &mut Vec<Case>, side: Side, draft: &Draft) {
    for place in &draft.lengths {
        for lie in lies(draft, *place) {
            let message = with_length(draft, *place, lie);
            out.push(read(side, &message));
            if lie == length_at(draft, *place) + 1 && side == Side::Request {
                out.push(front(12, &message));
                // With bytes behind, the longer length may fit.
                out.push(read(side, &Filled::padded(&message.prefix, message.whole + 3, b'z')));
            }
        }
    }
}

/// Counts of names over bytes that are all zero: each four are a name.
fn add_counts(out: &mut Vec<Case>) {
    let counts = [
        0,
        1,
        2,
        3,
        199,
        200,
        201,
        202,
        16_380,
        16_381,
        0x4000_0000,
        0x4000_0001,
        0x7fff_ffff,
        0x8000_0000,
        0xffff_fffe,
        0xffff_ffff,
    ];
    for count in counts {
        let mut prefix = header(2, 0x93);
        push(&mut prefix, 4, 0);
        push(&mut prefix, 4, count);
        for whole in [13, 14, 16, 17, 21, 24, 813, 817] {
            if whole < 100 || (199..=202).contains(&count) {
                out.push(read(Side::Reply, &Filled::padded(&prefix, whole, 0)));
            }
        }
        if count >= 16_380 {
            out.push(read(Side::Reply, &Filled::padded(&prefix, 65_533, 0)));
            out.push(read(Side::Reply, &Filled::padded(&prefix, 65_536, 0)));
        }
    }
}

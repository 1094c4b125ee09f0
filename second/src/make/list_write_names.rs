//! The readdir writer: lists of lengths, split characters, and pairs of
//! causes.

use crate::make::case::{again, write_readdir, Case, Filled, Side};
use crate::make::put::{reply_draft, Put};
use crate::methods::{method_of_request, READDIR};
use crate::store::push;

pub fn add(out: &mut Vec<Case>) {
    add_lists(out);
    add_texts(out);
    add_orders(out);
    add_rooms(out);
    add_long(out);
    add_most(out);
    add_again(out);
}

fn names(room: usize, result: i32, run: &[u8], lengths: &[u32]) -> Case {
    write_readdir(room, 0x0d0e_0f10, result, &Filled::exact(run), lengths)
}

/// Sums that are right, off by little, and right only when they wrap.
fn add_lists(out: &mut Vec<Case>) {
    let run = b"foobar";
    let lists: [&[u32]; 20] = [
        &[],
        &[6],
        &[3, 3],
        &[0, 6],
        &[6, 0],
        &[0, 3, 0, 0, 3, 0],
        &[1, 1, 1, 1, 1, 1],
        &[5],
        &[7],
        &[3, 2],
        &[3, 4],
        &[0],
        &[0xffff_ffff],
        &[0xffff_ffff, 7],
        &[7, 0xffff_ffff],
        &[3, 0xffff_ffff, 1, 3],
        &[0x8000_0000, 0x8000_0006],
        &[0x8000_0000, 0x8000_0000, 6],
        &[6, 0x4000_0000, 0x4000_0000, 0x4000_0000, 0x4000_0000],
        &[0xffff_fffd, 0xffff_ffff, 0xffff_ffff, 11],
    ];
    for lengths in lists {
        out.push(names(60, 0, run, lengths));
        out.push(names(60, 1, b"", lengths));
        out.push(names(5, 0, run, lengths));
    }
}

/// Names are texts each for itself.
fn add_texts(out: &mut Vec<Case>) {
    let euro = b"\xe2\x82\xac\xc3\xa9";
    for lengths in [&[5u32][..], &[3, 2], &[1, 4], &[2, 3], &[4, 1], &[3, 0, 2], &[1, 1, 1, 2]] {
        out.push(names(60, 0, euro, lengths));
        out.push(names(0, i32::MAX, euro, lengths));
    }
    // The bad one is the first, a middle one or the last.
    for index in 0..4 {
        let mut run = b"abcdefgh".to_vec();
        run[index * 2] = 0xc3;
        out.push(names(60, 0, &run, &[2, 2, 2, 2]));
    }
}

/// Two causes at once.
fn add_orders(out: &mut Vec<Case>) {
    for room in [0, 60] {
        for result in [-1, i32::MIN, 0] {
            out.push(names(room, result, b"ab", &[1]));
            out.push(names(room, result, b"\xc3\xa9", &[1, 1]));
            out.push(names(room, result, b"\xff", &[2]));
            let long = Filled::padded(b"", 65_600, b'n');
            let long_bad = Filled::padded(b"\xff", 65_600, b'n');
            out.push(write_readdir(room, 1, result, &long, &[65_600]));
            out.push(write_readdir(room, 1, result, &long, &[65_599]));
            out.push(write_readdir(room, 1, result, &long_bad, &[65_600]));
            out.push(write_readdir(room, 1, result, &long_bad, &[1, 65_600]));
        }
    }
}

fn add_rooms(out: &mut Vec<Case>) {
    for room in [0, 12, 13, 14, 33, 34, 35, 90, 65_536, 65_537, 70_000] {
        out.push(names(room, 0, b"foobarbaz", &[3, 3, 3]));
        out.push(names(room, i32::MAX, b"", &[]));
    }
}

/// Messages of exactly 65,536 bytes and of one more, by one name or by many.
fn add_long(out: &mut Vec<Case>) {
    for room in [65_535, 65_536, 65_537, 70_000] {
        for more in [0, 1] {
            let one = 65_536 - 17 + more;
            let run = Filled::padded(b"/", one, b'm');
            out.push(write_readdir(room, 2, 0, &run, &[one as u32]));
            let mut lengths = vec![0; 499];
            let last = 65_536 - 13 - 4 * 500 + more;
            lengths.push(last as u32);
            let run = Filled::padded(b"/", last, b'm');
            out.push(write_readdir(room, 2, 0, &run, &lengths));
        }
    }
    out.push(names(9_000, 0, b"", &[0xffff_ffff; 40]));
}

/// As many names as a message can have: 16,380 empty ones leave three bytes
/// of the greatest length.
fn add_most(out: &mut Vec<Case>) {
    let mut lengths = vec![0; 16_380];
    out.push(names(65_533, 0, b"", &lengths));
    out.push(names(65_532, 0, b"", &lengths));
    lengths[0] = 1;
    for (run, room) in [("a", 65_534), ("ab", 65_540), ("abc", 65_536), ("abcd", 65_537)] {
        lengths[16_379] = run.len() as u32 - 1;
        out.push(names(room, 0, run.as_bytes(), &lengths));
    }
    out.push(names(70_000, 0, b"", &[0; 16_381]));
    let mut message = reply_draft(method_of_request(READDIR).unwrap(), 3, 5, &[]).bytes;
    push(&mut message, 4, 16_380);
    for room in [65_533, 65_532] {
        out.push(again(Side::Reply, room, &Filled::padded(&message, 65_533, 0)));
    }
}

fn add_again(out: &mut Vec<Case>) {
    let method = method_of_request(READDIR).unwrap();
    let lists: [&[&str]; 4] = [&[], &[""], &["foo", "bar", "baz"], &["", "\u{e9}", "", "x"]];
    for list in lists {
        let names = list.iter().map(|name| name.as_bytes().to_vec()).collect();
        let message = reply_draft(method, 3, 5, &[Put::Names(names)]).whole();
        for room in [message.whole, message.whole - 1, message.whole + 9, 0, 65_537] {
            out.push(again(Side::Reply, room, &message));
        }
        let behind = Filled::padded(&message.prefix, message.whole + 8, 0xff);
        out.push(again(Side::Reply, message.whole, &behind));
    }
}

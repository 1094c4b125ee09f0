//! Readdir replies whose names are copied: lists of up to 20 names, runs
//! around the exact length, and names that are not shown.

use crate::answer::LONGEST_SHOWN;
use crate::make::case::{shown, Case, Side};
use crate::make::put::{reply_draft, Put};
use crate::methods::{method_of_request, READDIR};

/// Where the count of the names begins.
const COUNT: usize = 9;

const ID: u32 = 0x3132_3334;

pub fn add(out: &mut Vec<Case>) {
    for names in lists() {
        add_rooms(out, &names);
    }
    add_counts(out);
    add_cuts(out);
    add_results(out);
    add_malformed(out);
}

fn reply(room: usize, message: &[u8]) -> Case {
    shown(Side::Reply, room, message)
}

fn readdir(result: i32, names: &[impl AsRef<[u8]>]) -> Vec<u8> {
    let names = names.iter().map(|name| name.as_ref().to_vec()).collect();
    reply_draft(method_of_request(READDIR).unwrap(), ID, result, &[Put::Names(names)]).bytes
}

/// Few names of all kinds, and as many as the list of lengths holds, more
/// and fewer.
fn lists() -> Vec<Vec<&'static str>> {
    let letters = ["a", "b", "c", "d", "e", "f", "g", "h", "i", "j"].repeat(2);
    let mixed = ["", "\u{e9}", "x", "\u{20ac}\u{1f600}", "name"].repeat(4);
    let mut lists = vec![
        vec![],
        vec![""],
        vec!["name"],
        vec!["", "", ""],
        vec!["foo", "bar", "baz"],
        vec!["", "\u{e9}", "", "\u{20ac}", "\u{1f600}", "x"],
    ];
    for count in [15, 16, 17, 20] {
        lists.push(vec![""; count]);
        lists.push(letters[..count].to_vec());
        lists.push(mixed[..count].to_vec());
    }
    lists
}

fn add_rooms(out: &mut Vec<Case>, names: &[&str]) {
    let message = readdir(0, names);
    let exact = names.concat().len();
    for room in [exact, exact.saturating_sub(1), 0, exact + 5] {
        out.push(reply(room, &message));
    }
}

/// A count that is less than the names, and one that is more.
fn add_counts(out: &mut Vec<Case>) {
    for count in [0, 1, 2, 4, u32::MAX] {
        let mut message = readdir(0, &["foo", "", "\u{e9}t\u{e9}"]);
        message[COUNT..COUNT + 4].copy_from_slice(&count.to_be_bytes());
        out.push(reply(9, &message));
    }
}

/// Every cut, from a runt of no bytes on. No name is shown, also where it is
/// whole.
fn add_cuts(out: &mut Vec<Case>) {
    let message = readdir(0, &["a", "", "bc"]);
    for length in 0..message.len() {
        out.push(reply(9, &message[..length]));
    }
}

/// Every result that is not negative is a success.
fn add_results(out: &mut Vec<Case>) {
    for (room, result) in [(9, 1), (LONGEST_SHOWN, i32::MAX), (9, -1), (9, i32::MIN)] {
        out.push(reply(room, &readdir(result, &["foo", "bar", "baz"])));
    }
}

/// A malformed name, first, between and last, and a character that is split
/// over two names.
fn add_malformed(out: &mut Vec<Case>) {
    let lists: [[&[u8]; 3]; 4] = [
        [b"\xc3b", b"cd", b"ef"],
        [b"ab", b"\xc3d", b"ef"],
        [b"ab", b"cd", b"\xc3f"],
        [b"a\xc3", b"\xa9d", b"ef"],
    ];
    for names in lists {
        out.push(reply(9, &readdir(0, &names)));
    }
}

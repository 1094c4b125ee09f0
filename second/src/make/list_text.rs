//! Texts at the ends of every range of every entry of the list of
//! well-formed characters, in all places of a text.

use crate::make::case::{front, listing, read, write_getcreds, write_readdir, Case, Filled, Side};
use crate::make::put::{reply_draft, request_draft, writer_request, writer_success, Put};
use crate::methods::{Method, METHODS};

/// The entries: for each byte of a character its least and greatest value.
pub const ENTRIES: [&[(u8, u8)]; 9] = [
    &[(0x00, 0x7f)],
    &[(0xc2, 0xdf), (0x80, 0xbf)],
    &[(0xe0, 0xe0), (0xa0, 0xbf), (0x80, 0xbf)],
    &[(0xe1, 0xec), (0x80, 0xbf), (0x80, 0xbf)],
    &[(0xee, 0xef), (0x80, 0xbf), (0x80, 0xbf)],
    &[(0xed, 0xed), (0x80, 0x9f), (0x80, 0xbf)],
    &[(0xf0, 0xf0), (0x90, 0xbf), (0x80, 0xbf), (0x80, 0xbf)],
    &[(0xf1, 0xf3), (0x80, 0xbf), (0x80, 0xbf), (0x80, 0xbf)],
    &[(0xf4, 0xf4), (0x80, 0x8f), (0x80, 0xbf), (0x80, 0xbf)],
];

/// What stands before and behind a character in a text; it begins at each
/// place from 0 to 7.
const PLACES: [(&[u8], &[u8]); 8] = [
    (b"", b""),
    (b"a", b"z"),
    (b"\xc3\xa9", b""),
    (b"abc", b""),
    (b"\xf0\x9f\x98\x80", b"xyz"),
    (b"\xc3\xa9\xe2\x82\xac", b"\xf0\x9f\x98\x80"),
    (b"abcdef", b""),
    (b"abcdefg", b"\xc2\x80z"),
];

/// How many ways `carry` knows to put a text into a case.
const CARRIERS: usize = 16;

/// Every character goes into every carrier, each time at another place.
pub fn add(out: &mut Vec<Case>) {
    let mut turn = 0;
    for character in edges() {
        for (before, behind) in PLACES {
            let text = [before, &character, behind].concat();
            out.push(read(Side::Request, &unlink(&text)));
        }
        for way in 0..CARRIERS {
            let (before, behind) = PLACES[(turn + way) % PLACES.len()];
            out.push(carry(way, &[before, &character, behind].concat()));
        }
        turn += 1;
    }
    for first in 0..=255 {
        out.push(read(Side::Request, &unlink(&[first, 0x90, 0x80, 0x80])));
    }
    for entry in ENTRIES {
        add_broken(out, entry, &mut turn);
    }
}

/// Characters with each byte at the ends of its range and just outside, the
/// other bytes at one end.
fn edges() -> Vec<Vec<u8>> {
    let mut found: Vec<Vec<u8>> = Vec::new();
    for entry in ENTRIES {
        for base in ends(entry) {
            for (index, (least, greatest)) in entry.iter().enumerate() {
                let outside = [least.wrapping_sub(1), greatest.wrapping_add(1)];
                for byte in [*least, *greatest].into_iter().chain(outside) {
                    let mut character = base.clone();
                    character[index] = byte;
                    if !found.contains(&character) {
                        found.push(character);
                    }
                }
            }
        }
    }
    found
}

/// The least and the greatest character of an entry.
fn ends(entry: &[(u8, u8)]) -> [Vec<u8>; 2] {
    let least = entry.iter().map(|range| range.0).collect();
    let greatest = entry.iter().map(|range| range.1).collect();
    [least, greatest]
}

/// A character broken off at the end of the text, with its other bytes
/// behind the text, and broken off before another character.
fn add_broken(out: &mut Vec<Case>, entry: &[(u8, u8)], turn: &mut usize) {
    for whole in ends(entry) {
        for length in 1..whole.len() {
            let (there, missing) = whole.split_at(length);
            for before in [&b""[..], b"ab"] {
                let text = [before, there].concat();
                let mut bytes = unlink(&text).bytes();
                bytes.extend_from_slice(missing);
                out.push(read(Side::Request, &Filled::exact(&bytes)));
                out.push(read(Side::Request, &unlink(&[&text[..], b"z"].concat())));
                for _ in 0..3 {
                    out.push(carry(*turn % CARRIERS, &text));
                    *turn += 1;
                }
            }
            // The character is split over two names.
            out.push(read(Side::Reply, &names(&[there, missing])));
            out.push(named(&[there, missing]));
        }
    }
}

pub fn method(name: &str) -> &'static Method {
    METHODS.iter().find(|method| method.name == name).unwrap()
}

pub fn run(bytes: &[u8]) -> Put {
    Put::Run(Filled::exact(bytes))
}

/// A request whose only field is a path.
pub fn unlink(text: &[u8]) -> Filled {
    request_draft(method("unlink"), 0x55, &[run(text)]).whole()
}

/// A case with the text in one of its fields.
fn carry(way: usize, text: &[u8]) -> Case {
    match way {
        0 => writer_request(method("symlink"), 50, 0x58, &[run(text), run(b"l")]),
        1 => writer_request(method("symlink"), 50, 0x58, &[run(b"t"), run(text)]),
        2 => writer_success(method("readlink"), 50, 0x58, 0, &[run(text)]),
        3 => write_getcreds(50, 0x58, &Filled::exact(text)),
        4 => named(&[text, b"n", b"m"]),
        5 => named(&[b"n", text, b"", b"m"]),
        6 => named(&[b"n", b"m", text]),
        7 => read(Side::Reply, &names(&[text, b"n", b"m"])),
        8 => read(Side::Reply, &names(&[b"n", text, b""])),
        9 => read(Side::Reply, &names(&[b"n", b"m", text])),
        10 => read(Side::Reply, &reply_draft(method("readlink"), 0x57, 3, &[run(text)]).whole()),
        11 => read(Side::Reply, &reply_draft(method("getcreds"), 0x57, 0, &[run(text)]).whole()),
        _ => carry_request(way, text),
    }
}

/// What follows the text begins with a continuation byte where a number
/// follows.
fn carry_request(way: usize, text: &[u8]) -> Case {
    let late = Put::Number(0x80_80_80_80_80_80_80_80);
    let request = |name, puts: &[Put]| request_draft(method(name), 0x56, puts).whole();
    match way {
        12 => read(Side::Request, &request("access", &[run(text), late])),
        13 => read(Side::Request, &request("rename", &[run(b"/o"), run(text), late])),
        14 => listing(60, &request("symlink", &[run(text), run(b"l")])),
        _ => front(13, &request("link", &[run(b"o"), run(text)])),
    }
}

/// The writer of these names.
fn named(names: &[&[u8]]) -> Case {
    let lengths: Vec<u32> = names.iter().map(|name| name.len() as u32).collect();
    write_readdir(60, 0x58, 0, &Filled::exact(&names.concat()), &lengths)
}

/// A readdir reply with these names.
pub fn names(names: &[&[u8]]) -> Filled {
    let names = names.iter().map(|name| name.to_vec()).collect();
    reply_draft(method("readdir"), 0x59, 0, &[Put::Names(names)]).whole()
}

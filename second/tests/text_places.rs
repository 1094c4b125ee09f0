//! The place of a malformed text: where its longest well-formed beginning ends.

mod common;

use std::str::from_utf8;

use common::records::{assert_kept, table};
use common::*;
use second::answer::answer;
use second::front::{front, Front};
use second::hex::from_hex;
use second::listing::list_request;
use second::names::Names;
use second::text::well_formed_end;
use second::value::Value;
use second::write_reply::*;
use second::write_request::*;

/// Requests and their places, counted by hand.
const REQUESTS: [(&str, usize); 19] = [
    ("00000005 0f 00000001 80", 9),
    // One letter, then a character of three bytes with a letter for its third.
    ("00000001 0f 00000004 61e28241", 10),
    ("00000001 02 00000003 2f61ff", 11),
    ("00000001 0f 00000004 61eda080", 10),
    ("00000001 0f 00000004 f4908080", 9),
    ("00000001 0f 00000003 c3a980", 11),
    ("00000001 0f 00000006 e282ac61c080", 13),
    // Broken off at the end of the string; the missing bytes stand behind it.
    ("00000001 0f 00000003 c3a9c3", 11),
    ("00000001 0f 00000003 c3a9c3 a9", 11),
    ("00000001 01 00000003 6162c3 a9", 11),
    ("00000001 0f 00000005 e282acf09f 9880", 12),
    ("00000001 0f 00000007 f09f9880f09f98 80", 13),
    ("00000001 07 00000001 e2 82ac0000", 9),
    // Second texts, behind texts of two, of no and of one byte.
    ("00000001 04 00000002 2f61 00000003 2f62c0", 17),
    ("00000001 06 00000000 00000004 c3a9c328 00", 15),
    ("00000001 05 00000001 61 00000002 61c3 a9", 15),
    // Both are malformed; the second is truncated; its length is truncated.
    ("00000001 05 00000002 61ff 00000001 80", 10),
    ("00000001 05 00000002 61ff 00000009 80", 10),
    ("00000001 06 00000002 61ff 0000", 10),
];

/// Replies: resolved, creds, and names.
const REPLIES: [(&str, usize); 9] = [
    ("00000001 83 00000000 00000005 61e2824162", 14),
    ("00000001 83 00000000 00000003 61c328", 14),
    ("00000001 83 7fffffff 00000004 e282ac80", 16),
    ("00000001 97 00000004 c3a9ff61", 11),
    ("00000001 97 00000002 61e2 82ac", 10),
    ("00000002 93 00000000 00000003 00000003 666f6f 00000003 62ff72 00000003 62617a", 25),
    ("00000002 93 00000000 00000003 00000003 666f6f 00000000 00000002 61c3 a9", 29),
    // A malformed name in front of a truncated one, and of a malformed one.
    ("00000001 93 00000000 00000002 00000002 6180 00000005", 18),
    ("00000001 93 00000000 00000002 00000003 6162ff 00000001 ff", 19),
];

#[test]
fn requests() {
    for (text, place) in REQUESTS {
        assert_eq!(request_refusal(text), (5, place), "{text}");
        assert_eq!(list_request(&from_hex(text)), format!("refused 5 at {place}\n"));
        let body = [&[0][..], &[0; 4], &framed(&from_hex(text))].concat();
        assert_eq!(answer(b'g', &body).unwrap(), format!("refused 5 at {place}"));
    }
}

#[test]
fn replies() {
    for (text, place) in REPLIES {
        let message = from_hex(text);
        assert_eq!(reply_refusal(text), (5, place), "{text}");
        assert_eq!(Names::open(&message).count(), 0);
        let body = [&[1][..], &[0; 4], &framed(&message)].concat();
        assert_eq!(answer(b'g', &body).unwrap(), format!("refused 5 at {place}"));
        // The table keeps the request that the reply is for.
        let id = u32::from_be_bytes(message[..4].try_into().unwrap());
        assert_kept(&table(64, &[(9, id, message[4] - 0x80)]), &message, 5, place);
        assert_kept(&table(64, &[]), &message, 5, place);
    }
}

/// Malformed texts are not looked at where they are truncated, or behind a
/// negative result.
#[test]
fn other_refusals_stay() {
    assert_eq!(request_refusal("00000001 0f 00000005 61ff"), (4, 9));
    assert_eq!(request_refusal("00000001 05 00000001 61 00000005 ff"), (4, 14));
    assert_eq!(reply_refusal("00000001 93 00000000 00000001 00000005 61ff"), (4, 17));
    assert_eq!(reply_known(&from_hex("00000001 83 ffffffff 00000001 80")), Some(9));
}

/// Texts that are malformed at each place, in one or several ways.
fn malformed_texts() -> Vec<Vec<u8>> {
    let good = "/a\u{e9}b\u{20ac}\u{1f600}\u{7ff}\u{10ffff}z".as_bytes();
    let mut texts = Vec::new();
    for at in 0..good.len() {
        for byte in [0x00, 0x41, 0x80, 0xbf, 0xc0, 0xc3, 0xe0, 0xed, 0xf0, 0xf4, 0xff] {
            let mut changed = good.to_vec();
            changed[at] = byte;
            texts.push([&good[..at], &[byte], &good[at..]].concat());
            texts.push(changed);
        }
        texts.push(good[..at].to_vec());
        texts.push([&good[..at], &good[at + 1..]].concat());
    }
    texts.retain(|text| from_utf8(text).is_err());
    texts
}

/// The place is inside the string, the bytes before it are well-formed, and no
/// longer beginning is.
#[test]
fn the_longest_beginning() {
    let texts = malformed_texts();
    assert!(texts.len() > 300);
    for text in texts {
        let end = well_formed_end(&text);
        assert!(end < text.len() && from_utf8(&text[..end]).is_ok(), "{text:02x?}");
        for longer in end + 1..=text.len() {
            assert!(from_utf8(&text[..longer]).is_err(), "{text:02x?}");
        }
        for behind in ["", "a", "\u{e9}", "\u{1f600}"] {
            let longer = [&text, behind.as_bytes()].concat();
            let error = from_utf8(&longer).unwrap_err();
            assert_eq!(well_formed_end(&longer), error.valid_up_to());
        }
    }
}

/// What follows the string does not count: neither trailing bytes nor the
/// next field.
#[test]
fn bytes_behind_the_string() {
    for text in malformed_texts() {
        let place = 9 + from_utf8(&text).unwrap_err().valid_up_to();
        let start = [&[0, 0, 0, 1, 0x01][..], &(text.len() as u32).to_be_bytes(), &text].concat();
        for behind in [&b""[..], b"\0", b"\x80", b"\xa9\xa9\xa9", b"\xbf\xbf\xbf\xbf", b"abcdef"] {
            let message = second::hex::to_hex(&[&start[..], behind].concat());
            assert_eq!(request_refusal(&message), (5, place));
        }
    }
}

#[test]
fn one_bad_byte_in_a_long_path() {
    for at in [0, 1, 1_999, 2_345, 3_998, 3_999] {
        let mut message = from_hex("00000001 0f 00000fa0");
        message.extend_from_slice(&[b'p'; 4_000]);
        message[9 + at] = 0xff;
        assert_eq!(list_request(&message), format!("refused 5 at {}\n", 9 + at));
    }
}

#[test]
fn the_fronts_bytes_are_the_same_for_every_place() {
    for (text, _) in REQUESTS {
        let message = from_hex(text);
        let wanted = [&message[..4], &[message[4] + 0x80], &from_hex("ffffffea")].concat();
        let mut buffer = pattern(12);
        assert_eq!(front(&message, &mut buffer), Front::Stored(9));
        assert_eq!((&buffer[..9], &buffer[9..]), (&wanted[..], &pattern(12)[9..]));
        let mut short = pattern(8);
        assert!(matches!(front(&message, &mut short), Front::Refused(_)));
        assert_eq!(short, pattern(8));
    }
}

#[test]
fn writers_have_place_0() {
    for text in malformed_texts() {
        let run = Value::run(&text);
        let good = Value::run(b"/good");
        for values in [[run, good], [good, run]] {
            assert_refused(5, 99, |buffer| write_request(buffer, 1, method("link"), &values));
        }
        assert_refused(5, 99, |buffer| write_success(buffer, 1, method("readlink"), 0, &[run]));
        assert_refused(5, 99, |buffer| write_getcreds(buffer, 1, &text));
        let names = [b"ok", &text[..]].concat();
        let lengths = [2, text.len() as u32];
        assert_refused(5, 99, |buffer| write_readdir(buffer, 1, 0, &names, &lengths));
    }
}

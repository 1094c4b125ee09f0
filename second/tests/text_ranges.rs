//! Well-formed text, compared with the check of the standard library.

use second::text::{well_formed, well_formed_end};

fn same(bytes: &[u8]) {
    let (good, end) = match std::str::from_utf8(bytes) {
        Ok(text) => (true, text.len()),
        Err(error) => (false, error.valid_up_to()),
    };
    assert_eq!((well_formed(bytes), well_formed_end(bytes)), (good, end), "{bytes:02x?}");
}

#[test]
fn all_texts_of_up_to_two_bytes() {
    same(b"");
    for first in 0..=255u8 {
        same(&[first]);
        for second in 0..=255u8 {
            same(&[first, second]);
        }
    }
}

#[test]
fn longer_texts_with_bytes_at_the_ends_of_ranges() {
    let ends = [
        0x00, 0x7f, 0x80, 0x8f, 0x90, 0x9f, 0xa0, 0xbf, 0xc0, 0xc2, 0xdf, 0xe0, 0xed, 0xf0, 0xf4,
        0xf5, 0xff,
    ];
    for first in 0..=255u8 {
        for second in ends {
            for third in ends {
                same(&[first, second, third]);
                for fourth in ends {
                    same(&[first, second, third, fourth]);
                }
            }
        }
    }
}

#[test]
fn characters_at_every_place() {
    for character in ["\0", "\u{80}", "\u{7ff}", "\u{800}", "\u{feff}", "\u{ffff}", "\u{10ffff}"] {
        for before in 0..6 {
            let text = "a".repeat(before) + character + "z";
            assert!(well_formed(text.as_bytes()));
            let bytes = &text.as_bytes()[..text.len() - 1];
            for end in 0..=bytes.len() {
                same(&bytes[..end]);
                same(&[&bytes[..end], b"z"].concat());
                same(&[&bytes[..end], text.as_bytes()].concat());
            }
        }
    }
}

#[test]
fn surrogates_and_overlong_forms() {
    for bad in [&b"\xed\xa0\x80"[..], b"\xed\xbf\xbf", b"\xc0\x80", b"\xc1\xbf", b"\xe0\x9f\xbf"] {
        assert!(!well_formed(bad));
    }
    for bad in [&b"\xf0\x8f\xbf\xbf"[..], b"\xf4\x90\x80\x80", b"\xf5\x80\x80\x80", b"\x80"] {
        assert!(!well_formed(bad));
    }
}

//! The listing of a request.

mod common;

use common::{assert_refused, assert_stored};
use second::hex::from_hex;
use second::listing::{list_request, write_listing};

fn listed(text: &str) -> String {
    list_request(&from_hex(text))
}

#[test]
fn the_example() {
    let text = "00 00 00 07 01 00 00 00 02 2f 61 04";
    assert_eq!(listed(text), "access id 7\npath 2\nmode 4\nknown 12 of 12\n");
    let behind = format!("{text} 0a");
    assert_eq!(listed(&behind), "access id 7\npath 2\nmode 4\nknown 12 of 13\n");
}

#[test]
fn unknown_and_refused() {
    assert_eq!(listed("00000023 42 00"), "unknown 66 id 35\nknown 5 of 6\n");
    assert_eq!(listed("ffffffff ff"), "unknown 255 id 4294967295\nknown 5 of 5\n");
    assert_eq!(listed(""), "refused 1 at 0\n");
    assert_eq!(listed("00000001 02 00000002 2f"), "refused 4 at 9\n");
    assert_eq!(list_request(&[0; 65_537]), "refused 2 at 0\n");
}

#[test]
fn timestamps_have_two_lines() {
    let text = "00000001 16 00000000 0000000000000001 00000002 0000000000000003 00000004 \
                ffffffffffffffff";
    let wanted = "utimens id 1\npath 0\natime 1\natime.nsec 2\nmtime 3\nmtime.nsec 4\n\
                  handle 18446744073709551615\nknown 41 of 41\n";
    assert_eq!(listed(text), wanted);
}

#[test]
fn rooms() {
    for text in ["00000007 01 00000002 2f61 04", "00000023 42 00", "", "00000001 02 00000002 2f"] {
        let message = from_hex(text);
        let wanted = list_request(&message);
        for room in [wanted.len(), wanted.len() + 1, 300, 70_000] {
            assert_stored(wanted.as_bytes(), room, |buffer| write_listing(buffer, &message));
        }
        for room in [0, 1, wanted.len() - 1] {
            assert_refused(7, room, |buffer| write_listing(buffer, &message));
        }
    }
}

#[test]
fn bools_and_signs() {
    let text = "00000001 0a 00000000 ff 0000000000000000";
    assert_eq!(listed(text), "fsync id 1\npath 0\nis_datasync 1\nhandle 0\nknown 18 of 18\n");
    assert_eq!(
        listed("00000001 08 00000000 ffffffff 00000001"),
        "chown id 1\npath 0\nuid 4294967295\ngid 1\nknown 17 of 17\n"
    );
    assert_eq!(
        listed("00000001 0b 00000000 ffffffff"),
        "open id 1\npath 0\nflags -1\nknown 13 of 13\n"
    );
    assert_eq!(
        listed("00000001 01 00000000 80"),
        "access id 1\npath 0\nmode -128\nknown 10 of 10\n"
    );
}

#[test]
fn texts_and_data_as_lengths() {
    assert_eq!(
        listed("00000001 11 00000002 2f61 00000003 ffffff 0000000000000001 0000000000000002"),
        "write id 1\npath 2\ndata 3\noffset 1\nhandle 2\nknown 34 of 34\n"
    );
    assert_eq!(
        listed("00000001 06 00000001 61 00000002 6262 ff"),
        "rename id 1\nold_path 1\nnew_path 2\nflags 255\nknown 17 of 17\n"
    );
    assert_eq!(listed("00000001 17"), "getcreds id 1\nknown 5 of 5\n");
}

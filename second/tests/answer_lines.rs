//! Answer lines, letter by letter.

mod common;

use common::{with_parts, REPLY_PARTS, REQUEST_PARTS};
use second::answer::{answer, answer_all};
use second::hash::hash;
use second::hex::from_hex;
use second::make::{fixed_list, OPS};

/// The parts of a request and of a reply that shows none.
const NONE: &str = " parts=1390663664";
const NONE_OF_REPLY: &str = " parts=4177996864";

fn line(op: u8, body: &str) -> String {
    answer(op, &from_hex(body)).unwrap()
}

#[test]
fn the_hash() {
    assert_eq!(hash(b""), 0);
    assert_eq!(hash(b"/"), 48);
    assert_eq!(hash(b"ab"), 98 * 257 + 99);
    assert_eq!(hash(&[0xff; 4]), (256 * (257 * 257 * 257 + 257 * 257 + 257 + 1)) % 4_294_967_291);
}

#[test]
fn request_lines() {
    let getattr = "known 1 getattr 10 path=9:1:48 parts=3729606568";
    assert_eq!(line(b'q', "0000000a 00 00000001 02 00000001 2f"), getattr);
    // The prefix is filled up, or cut.
    assert_eq!(line(b'q', "0000000a 2f 00000001 02 00000001"), getattr);
    assert_eq!(line(b'q', "00000005 00 00000023 42 ff"), format!("unknown 35 66 5{NONE}"));
    assert_eq!(line(b'q', "00000004 00 00000023 42 ff"), format!("refused 1 at 0{NONE}"));
    // The path is whole and the mode is missing.
    assert_eq!(line(b'q', "0000000a 00 00000007 01 00000001 2f"), format!("refused 4 at 10{NONE}"));
    assert_eq!(
        line(b'q', "0000000a 00 00000007 01 00000000 ff"),
        format!("known 7 access 10 path=9:0:0 mode=-1{NONE}")
    );
    assert_eq!(
        line(b'q', "00000029 01 00000001 16 00000000"),
        format!(
            "known 1 utimens 41 path=9:0:0 atime=72340172838076673 atime.nsec=16843009 \
             mtime=72340172838076673 mtime.nsec=16843009 handle=72340172838076673{NONE}"
        )
    );
}

#[test]
fn reply_lines() {
    let none = format!("{NONE_OF_REPLY} names=0:0 end");
    assert_eq!(line(b'p', "00000009 00 00000001 82 fffffffe"), format!("failure 1 130 -2 9{none}"));
    assert_eq!(
        line(b'p', "0000000e 00 00000009 90 00000001 00000001 61"),
        "success 9 read 1 14 data=13:1:98 parts=4190502121 names=0:0 end"
    );
    assert_eq!(
        line(b'p', "0000000a 00 00000003 97 00000001 61"),
        "credentials 3 10 creds=9:1:98 parts=4177996962 names=0:0 end"
    );
    assert_eq!(line(b'p', "00000006 00 00000003 80"), format!("unknown-response 3 5{none}"));
    assert_eq!(line(b'p', "00000005 00 00000003 42"), format!("refused 3 at 4{none}"));
    // Data that is there, with another result.
    assert_eq!(
        line(b'p', "0000000e 00 00000009 90 00000002 00000001 61"),
        format!("refused 6 at 5{none}")
    );
}

#[test]
fn lines_with_names() {
    let mut fed = Vec::new();
    for number in [17u64, 1, 98, 22, 0, 0] {
        fed.extend_from_slice(&number.to_be_bytes());
    }
    assert_eq!(
        line(b'p', "00000016 00 00000002 93 00000005 00000002 00000001 61 00000000"),
        format!(
            "success 2 readdir 5 22{NONE_OF_REPLY} name=17:1:98 name=22:0:0 names=2:{} end",
            hash(&fed)
        )
    );
    let many = line(b'p', "00000400 00 00000002 93 00000000 000000c9");
    assert_eq!(many.matches(" name=").count(), 200);
    assert!(many.contains(" names=201:") && many.ends_with(" end"));
}

#[test]
fn listing_and_front_lines() {
    let message = "0000000c 00 00000007 01 00000002 2f61 04";
    let listed = "access id 7|path 2|mode 4|known 12 of 12|";
    assert_eq!(line(b'l', &format!("00000029 {message}")), format!("stored 41 0 {listed}"));
    let byte = (41 * 7 + 3) % 251;
    assert_eq!(
        line(b'l', &format!("0000002a {message}")),
        format!("stored 41 {} {listed}", byte + 1)
    );
    let buffer = [3, 10, 17, 24, 31, 38];
    let refused = format!("refused 7 at 0 {}", hash(&buffer));
    assert_eq!(line(b'l', &format!("00000006 {message}")), refused);
    assert_eq!(line(b'l', "0000000f 00000000 00"), "stored 15 0 refused 1 at 0|");
    assert_eq!(line(b'f', &format!("00000006 {message}")), format!("handed-on {}", hash(&buffer)));
    assert_eq!(
        line(b'f', "00000006 00000005 00 00000023 42"),
        format!("stored 5 {} {}", hash(&[0, 0, 0, 0x23, 0x80]), hash(&[38]))
    );
    assert_eq!(
        line(b'f', "00000004 00000005 00 00000023 42"),
        format!("refused 7 at 0 {}", hash(&buffer[..4]))
    );
    assert_eq!(line(b'f', "00000001 00000004 00 00000023"), "refused 1 at 0 4");
}

#[test]
fn writer_lines() {
    let rest = hash(&[38]);
    assert_eq!(
        line(b'e', "00000006 01020304"),
        format!("stored 5 {} {rest}", hash(&[1, 2, 3, 4, 0x80]))
    );
    assert_eq!(line(b'e', "00000000 01020304"), "refused 7 at 0 0");
    assert_eq!(line(b'u', "00000001 01020304 17"), "refused 3 at 0 4");
    assert_eq!(line(b'x', "00000001 01020304 97 00000000"), "refused 3 at 0 4");
    assert_eq!(line(b'c', "00000001 01020304 00000001 80 00000000"), "refused 5 at 0 4");
    assert_eq!(
        line(b'w', "00000010 00000007 01 00000002 61 00000001 2f 04"),
        format!(
            "stored 12 {} {}",
            hash(&from_hex("00000007 01 00000002 2f61 04")),
            hash(&[87, 94, 101, 108])
        )
    );
    assert_eq!(
        line(b'r', "00000001 00000007 90 00000002 00000001 00 00000000"),
        "refused 6 at 0 4"
    );
    assert_eq!(
        line(b'd', "00000001 00000007 00000000 00000001 61 00000000 00000001 00000002"),
        "refused 9 at 0 4"
    );
    assert_eq!(line(b'g', "00 00000000 00000005 00 00000001 02"), "refused 4 at 5");
    assert_eq!(line(b'g', "01 00000000 00000005 00 00000001 80"), "refused 7 at 0 0");
}

#[test]
fn most_lengths() {
    let body = |count: u32| {
        let mut body = from_hex("00000000 00000007 00000000 00000000 00 00000000");
        body.extend_from_slice(&count.to_be_bytes());
        body.resize(body.len() + 4 * count as usize, 0);
        body
    };
    assert_eq!(answer(b'd', &body(16_380)).unwrap(), "refused 7 at 0 0");
    assert_eq!(answer(b'd', &body(16_384)).unwrap(), "refused 2 at 0 0");
    assert!(answer(b'd', &body(16_385)).is_err());
}

/// The parts, shown by name, are the fields that the line shows.
#[test]
fn parts_are_the_fields() {
    for case in fixed_list(OPS).iter().filter(|case| b"qp".contains(&case.op)) {
        let line = answer(case.op, &case.body).unwrap();
        let names = if case.op == b'q' { &REQUEST_PARTS[..] } else { &REPLY_PARTS };
        let fields = line.split(" parts=").next().unwrap();
        let wanted = with_parts(names, fields);
        let behind = line.strip_prefix(&wanted).unwrap();
        let names = behind.starts_with(" name=") || behind.starts_with(" names=");
        assert!(if case.op == b'q' { behind.is_empty() } else { names });
    }
}

#[test]
fn cases_out_of_format_are_errors() {
    assert!(answer(b'q', &[0, 0, 0]).is_err());
    assert!(answer(b'z', &[]).is_err());
    assert!(answer(b'e', &from_hex("00000006 01020304 00")).is_err());
    assert!(answer(b'e', &from_hex("00011171 01020304")).is_err());
    let mut output = Vec::new();
    assert!(answer_all(&b"e\0\0\0\x09"[..], &mut output).is_err());
    answer_all(&b""[..], &mut output).unwrap();
    assert!(output.is_empty());
}

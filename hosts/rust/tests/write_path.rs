//! The write request with the path in front of its data (document 02, Item 3): runs of every boundary size, cuts, bytes
//! behind, lengths that lie, and what is refused first. The messages are put together here, not by the library's writer.

mod rows;

use rows::lent;
use tushalets::numbers::{refusals, types};
use tushalets::{front, raw, read_request, write_request, Fronted, Received, Refusal, Request, LONGEST};

const ID: u32 = 0x0102_0304;
const OFFSET: u64 = 0x1112_1314_1516_1718;
const HANDLE: u64 = 0x2122_2324_2526_2728;

/// The bytes of a write request without those of its path and of its data.
const FRAME: usize = 29;

/// Where the path begins: behind the header and the path's length.
const PATH: usize = 9;

/// More room than the longest message needs.
const SPARE: usize = 8;

/// A write request whose lengths say what they are told to.
fn claiming(path_len: usize, path: &[u8], data_len: usize, data: &[u8]) -> Vec<u8> {
    let mut message = ID.to_be_bytes().to_vec();
    message.push(types::WRITE);
    message.extend((path_len as u32).to_be_bytes());
    message.extend(path);
    message.extend((data_len as u32).to_be_bytes());
    message.extend(data);
    message.extend(OFFSET.to_be_bytes());
    message.extend(HANDLE.to_be_bytes());
    message
}

fn message(path: &[u8], data: &[u8]) -> Vec<u8> {
    claiming(path.len(), path, data.len(), data)
}

fn refusal_of(message: &[u8]) -> Refusal {
    read_request(message).expect_err("a refused request")
}

fn refusal(number: u8, place: usize) -> Refusal {
    Refusal { number, place }
}

/// Writes into exactly so many bytes of room, with more behind them, and into one byte less.
fn assert_written(path: &str, data: &[u8], expected: &[u8]) {
    let request = Request::Write { path, data, offset: OFFSET, handle: HANDLE };
    for spare in [0, SPARE] {
        let mut out = lent(expected.len() + spare);
        assert_eq!(write_request(ID, &request, &mut out), Ok(expected.len()));
        assert_eq!(out[..expected.len()], *expected);
        assert_eq!(out[expected.len()..], lent(expected.len() + spare)[expected.len()..]);
    }
    assert_refused(path.as_bytes(), data, expected.len() - 1, refusals::BUFFER_TOO_SMALL);
}

/// The writer refuses these runs with this number, at 0, and leaves the buffer as it was.
fn assert_refused(path: &[u8], data: &[u8], room: usize, number: u8) {
    let mut out = lent(room);
    let written = raw::write_request(ID, types::WRITE, &[OFFSET, HANDLE, 0, 0, 0], path, data, &mut out);
    let told = (written.number, written.place, written.len);
    assert_eq!(told, (number.into(), 0, 0), "{} and {} bytes", path.len(), data.len());
    assert_eq!(out, lent(room));
}

#[test]
fn runs_of_every_boundary_size() {
    const FREE: usize = LONGEST - FRAME;
    let (letters, zeros) = ("p".repeat(FREE + 1), [0; FREE + 1]);
    for (path, data) in
        [(0, 0), (0, 1), (1, 0), (1, 1), (0, FREE), (FREE, 0), (1, FREE - 1), (FREE - 1, 1), (30_000, FREE - 30_000)]
    {
        let (path, data) = (&letters[..path], &zeros[..data]);
        let expected = message(path.as_bytes(), data);
        assert_written(path, data, &expected);
        let body = Request::Write { path, data, offset: OFFSET, handle: HANDLE };
        assert_eq!(read_request(&expected), Ok(Received { id: ID, known: expected.len(), body }));
    }
    for (path, data) in [(0, FREE + 1), (FREE + 1, 0), (1, FREE), (FREE, 1), (30_000, FREE - 29_999)] {
        let (path, data) = (&letters.as_bytes()[..path], &zeros[..data]);
        assert_refused(path, data, LONGEST + SPARE, refusals::OVERSIZE);
        assert_eq!(refusal_of(&message(path, data)), refusal(refusals::OVERSIZE, 0));
    }
}

/// The path stands at 9 to 10, the data's length at 11, the data at 15 to 17, the offset at 18, the handle at 26 to 33.
#[test]
fn every_cut_is_refused_where_its_field_begins() {
    let whole = message(b"/f", b"xyz");
    for len in 0..whole.len() {
        let expected = match len {
            0..5 => refusal(refusals::TRUNCATED_HEADER, 0),
            5..9 => refusal(refusals::TRUNCATED, 5),
            9..11 => refusal(refusals::TRUNCATED, 9),
            11..15 => refusal(refusals::TRUNCATED, 11),
            15..18 => refusal(refusals::TRUNCATED, 15),
            18..26 => refusal(refusals::TRUNCATED, 18),
            _ => refusal(refusals::TRUNCATED, 26),
        };
        assert_eq!(refusal_of(&whole[..len]), expected, "cut to {len}");
    }
    assert_eq!(whole.len(), 34);
}

#[test]
fn bytes_behind_change_nothing() {
    let whole = message(b"/f", b"xyz");
    let read = read_request(&whole).expect("a write request");
    for behind in [1, 4, LONGEST - whole.len()] {
        for filling in [0x00, 0x80, 0xff] {
            let mut longer = whole.clone();
            longer.resize(whole.len() + behind, filling);
            assert_eq!(read_request(&longer), Ok(read));
        }
    }
}

/// 5 and not 4: whatever is wrong with the data, the path was looked at before.
#[test]
fn a_bad_path_comes_before_damaged_data() {
    for (path, broken) in [(&b"\x80/job"[..], 0), (b"/j\xc0ob", 2), (b"/job\xe2\x82", 4)] {
        let whole = message(path, b"xyz");
        for damaged in [
            whole.clone(),
            claiming(path.len(), path, 0xffff_ffff, b"xyz"),
            whole[..PATH + path.len() + 5].to_vec(),
            whole[..PATH + path.len()].to_vec(),
        ] {
            assert_eq!(refusal_of(&damaged), refusal(refusals::MALFORMED_TEXT, PATH + broken));
            let mut out = lent(9);
            assert_eq!(front(&damaged, &mut out), Ok(Fronted::Stored(9)));
            assert_eq!(out, [0x01, 0x02, 0x03, 0x04, types::WRITE_REPLY, 0xff, 0xff, 0xff, 0xea]);
        }
        assert_eq!(refusal_of(&whole[..PATH + path.len() - 1]), refusal(refusals::TRUNCATED, PATH));
    }
}

#[test]
fn lengths_that_lie() {
    let (path, data) = (b"/f", b"xyz");
    for len in [0x22, 0x7fff_ffff, 0x8000_0000, 0xffff_fff7, 0xffff_ffff] {
        assert_eq!(refusal_of(&claiming(len, path, 3, data)), refusal(refusals::TRUNCATED, PATH), "path of {len}");
        assert_eq!(refusal_of(&claiming(2, path, len, data)), refusal(refusals::TRUNCATED, 15), "data of {len}");
    }
    // A path that is said to be shorter has its last byte read as the first of the data's length: 66000000.
    assert_eq!(refusal_of(&claiming(1, path, 3, data)), refusal(refusals::TRUNCATED, 14));
    // One byte of data more is one byte of the handle less.
    assert_eq!(refusal_of(&claiming(2, path, 4, data)), refusal(refusals::TRUNCATED, 27));
}

#[test]
fn the_first_check_is_the_one_that_is_told() {
    let long = [b'a'; LONGEST];
    let mut bad = long;
    bad[LONGEST - 1] = 0x80;
    assert_refused(&bad, b"", LONGEST, refusals::MALFORMED_TEXT);
    assert_refused(b"\x80", &long, LONGEST, refusals::MALFORMED_TEXT);
    assert_refused(b"\x80", b"", 0, refusals::MALFORMED_TEXT);
    assert_refused(&long, b"", 0, refusals::OVERSIZE);
    assert_refused(b"", &long, 0, refusals::OVERSIZE);
    assert_refused(b"", b"\x80", FRAME, refusals::BUFFER_TOO_SMALL);
}

//! Answer lines of single calls on a table of 64, letter by letter.

mod common;

use common::tables::{ALL_FREE, BOTH, EIGHT, FAILURE, FIRST, SECOND, SEVEN, SHORT};
use second::answer::answer;
use second::hash::hash;
use second::hex::from_hex;

/// The records in hex, and free ones up to 64 behind them.
fn wide(records: &[&str]) -> String {
    let free = "000000000000".repeat(64 - records.len());
    format!("{} {free}", records.concat())
}

fn one(call: &str, records: &[&str], message: &str) -> String {
    let body = format!("{call} {} {message}", wide(records));
    answer(b'o', &from_hex(&body)).unwrap()
}

#[test]
fn single_calls() {
    let none = "00000000 00";
    assert_eq!(one(&format!("65 {none}"), &[SEVEN], ""), format!("emptied {ALL_FREE}"));
    assert_eq!(one("6e 00000007 02", &[], ""), format!("entered {FIRST}"));
    assert_eq!(one("6e 00000008 42", &[SEVEN], ""), format!("entered {BOTH}"));
    assert_eq!(one("6e 00000007 02", &[SEVEN], ""), format!("refused 10 at 0 {FIRST}"));
    let arrive = format!("61 {none}");
    let parts = "0:0 0:0 0:0";
    assert_eq!(one(&arrive, &[SEVEN, EIGHT], FAILURE), format!("answered {parts} {SECOND}"));
    assert_eq!(one(&arrive, &[SEVEN], SHORT), format!("refused 4 at 9 {FIRST}"));
    assert_eq!(one(&arrive, &[SEVEN], "00000008 80"), format!("refused 12 at 0 {FIRST}"));
    assert_eq!(one(&arrive, &[SEVEN], "00000007 81 ffffffff"), format!("refused 13 at 0 {FIRST}"));
    assert_eq!(one(&arrive, &[SEVEN, SEVEN], ""), {
        let records = from_hex(&wide(&[SEVEN, SEVEN]));
        format!("refused 20 at 0 records={}", hash(&records))
    });
}

#[test]
fn parts_of_single_replies() {
    for (kind, behind, parts) in [
        ("03", "83 00000000 00000001 61", "1:98 0:0 0:0"),
        ("10", "90 00000001 00000001 61", "0:0 1:98 0:0"),
        ("17", "97 00000001 61", "0:0 0:0 1:98"),
        ("03", "83 ffffffff 00000001 61", "0:0 0:0 0:0"),
        ("13", "93 00000000 00000001 00000001 61", "0:0 0:0 0:0"),
    ] {
        let message = format!("00000009 {behind}");
        let line = one("61 00000000 00", &[&format!("01 00000009 {kind}")], &message);
        assert_eq!(line, format!("answered {parts} {ALL_FREE}"));
    }
}

#[test]
fn cases_out_of_format_are_errors() {
    let body = |call: &str, behind: &str| from_hex(&format!("{call} {} {behind}", wide(&[])));
    assert!(answer(b'o', &body("65 00000000 00", "")).is_ok());
    // A look, an id, a type or a message where there is none.
    for call in ["6b 00000000 00", "65 00000001 00", "65 00000000 01", "61 00000001 00"] {
        assert!(answer(b'o', &body(call, "")).is_err(), "{call}");
    }
    for call in ["65 00000000 00", "6e 00000000 00"] {
        assert!(answer(b'o', &body(call, "00")).is_err(), "{call}");
    }
    let long = |length: usize| body("61 00000000 00", &"00".repeat(length));
    assert!(answer(b'o', &long(1_024)).is_ok());
    assert!(answer(b'o', &long(1_025)).is_err());
    // A record too few, another mark, and a free record that holds something.
    let good = body("65 00000000 00", "");
    assert!(answer(b'o', &good[..good.len() - 1]).is_err());
    let changed = |index: usize, byte: u8| {
        let mut body = good.clone();
        body[index] = byte;
        answer(b'o', &body)
    };
    assert!(changed(6, 1).is_ok());
    assert!(changed(6, 2).is_err());
    assert!((7..12).all(|index| changed(index, 1).is_err()));
}

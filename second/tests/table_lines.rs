//! Answer lines of calls on a table, letter by letter.

mod common;

use common::tables::{ALL_FREE, BOTH, EIGHT, FAILURE, FIRST, SECOND, SEVEN, SHORT};
use second::answer::answer;
use second::hash::hash;
use second::hex::from_hex;

/// The records in hex, and free ones up to 64 behind them.
fn table(records: &[&str]) -> String {
    let free = "00".repeat(64 - records.len());
    format!("0040 {} {free}", records.concat())
}

fn calls(table: &str, calls: &str) -> String {
    answer(b't', &from_hex(&format!("{table} {calls}"))).unwrap()
}

/// The message as a call has it.
fn arrives(message: &str) -> String {
    let length = from_hex(message).len();
    format!("61 {length:08x} 00 {length:08x} {message}")
}

#[test]
fn the_checksum_is_that_of_six_bytes_each() {
    let mut records = [0; 384];
    assert_eq!(ALL_FREE, format!("records={}", hash(&records)));
    records[..6].copy_from_slice(&from_hex(SEVEN));
    assert_eq!(FIRST, format!("records={}", hash(&records)));
    records[6..12].copy_from_slice(&from_hex(EIGHT));
    assert_eq!(BOTH, format!("records={}", hash(&records)));
    records[..6].fill(0);
    assert_eq!(SECOND, format!("records={}", hash(&records)));
}

#[test]
fn emptying_and_entering() {
    assert_eq!(calls(&table(&[SEVEN, EIGHT]), "65"), format!("table emptied {ALL_FREE}"));
    let entered = calls(&table(&[]), "6e 00000007 02 6e 00000008 42");
    assert_eq!(entered, format!("table entered {FIRST} entered {BOTH}"));
    // A type that no request has, an id that is outstanding.
    let refused = calls(&table(&[SEVEN]), "6e 00000007 80 6e 00000007 02");
    assert_eq!(refused, format!("table refused 3 at 0 {FIRST} refused 10 at 0 {FIRST}"));
}

#[test]
fn a_full_table() {
    let records: Vec<String> = (0..64).map(|id| format!("01 000000{id:02x} 02")).collect();
    let texts: Vec<&str> = records.iter().map(String::as_str).collect();
    let sum = hash(&from_hex(&texts.concat()));
    let line = calls(&table(&texts), "6e 00000040 02 6b 0000003f 6b 00000040");
    let refused = format!("table refused 11 at 0 records={sum}");
    assert_eq!(line, format!("{refused} looked 64 2 records={sum} looked 64 none records={sum}"));
}

#[test]
fn looks() {
    let line = calls(&table(&[SEVEN, EIGHT]), "6b 00000008 6b 00000009");
    assert_eq!(line, format!("table looked 2 66 {BOTH} looked 2 none {BOTH}"));
    assert_eq!(calls(&table(&[]), "6b 00000000"), format!("table looked 0 none {ALL_FREE}"));
}

#[test]
fn replies_that_answer() {
    let both = table(&[SEVEN, EIGHT]);
    let replies = [arrives(FAILURE), arrives("00000008 80 ff")].concat();
    let line = calls(&both, &replies);
    let wanted = format!("failure 7 130 -2 9 {SECOND} unknown-response 8 5 {ALL_FREE}");
    assert_eq!(line, format!("table {wanted}"));
    // The other order; then neither is outstanding.
    let replies = ["00000008 80", FAILURE, "00000008 80", FAILURE].map(arrives).concat();
    let line = calls(&both, &replies);
    let wanted = format!("unknown-response 8 5 {FIRST} failure 7 130 -2 9 {ALL_FREE}");
    let stray = format!("refused 12 at 0 {ALL_FREE} refused 12 at 0 {ALL_FREE}");
    assert_eq!(line, format!("table {wanted} {stray}"));
}

#[test]
fn replies_with_fields() {
    let answered = [
        ("03", "83 00000000 00000001 61", "success 9 readlink 0 14 resolved=13:1:98"),
        ("10", "90 00000001 00000001 61", "success 9 read 1 14 data=13:1:98"),
        ("0b", "8b 00000000 0000000000000005", "success 9 open 0 17 handle=5"),
        ("13", "93 00000005 00000001 00000001 61", "success 9 readdir 5 18"),
        ("17", "97 00000001 61", "credentials 9 10 creds=9:1:98"),
    ];
    for (kind, behind, told) in answered {
        let records = table(&[&format!("01 00000009 {kind}")]);
        let line = calls(&records, &arrives(&format!("00000009 {behind}")));
        assert_eq!(line, format!("table {told} {ALL_FREE}"));
    }
}

#[test]
fn replies_that_are_refused() {
    let both = table(&[SEVEN, EIGHT]);
    let replies = [
        "",
        SHORT,
        "00000009 83 00000000 00000001 80",
        "00000009 98",
        "00000008 90 00000002 00000001 61",
        "00000009 80",
        "00000008 82 fffffffe",
    ];
    let line = calls(&both, &replies.map(arrives).concat());
    let mut wanted = "table".to_string();
    for told in ["1 at 0", "4 at 9", "5 at 13", "3 at 4", "6 at 5", "12 at 0", "13 at 0"] {
        wanted += &format!(" refused {told} {BOTH}");
    }
    assert_eq!(line, wanted);
}

/// A message in its short form: a length and a fill.
#[test]
fn messages_may_be_filled_up() {
    let unknown = "00000005 00000007 80";
    let behind = format!("61 00010000 00 {unknown}");
    assert_eq!(calls(&table(&[SEVEN]), &behind), format!("table unknown-response 7 5 {ALL_FREE}"));
    let oversize = format!("61 00010001 00 {unknown}");
    assert_eq!(calls(&table(&[SEVEN]), &oversize), format!("table refused 2 at 0 {FIRST}"));
    let cut = format!("61 00000004 00 {unknown}");
    assert_eq!(calls(&table(&[SEVEN]), &cut), format!("table refused 1 at 0 {FIRST}"));
}

#[test]
fn tables_that_are_not_sound() {
    let all = ["65", "6e 00000007 80", &arrives(""), &arrives(FAILURE), "6b 00000007"].concat();
    for (records, sum) in [
        ("0000", 0),
        ("0001 00", 252_974_116),
        ("0001 01 00000007 02", 421_406_023),
        (&format!("003f {}", "00".repeat(63)), 1_650_166_375),
    ] {
        let refused = format!(" refused 20 at 0 records={sum}").repeat(5);
        assert_eq!(calls(records, &all), format!("table{refused}"));
    }
    // The first and the last record hold the same id: emptying helps.
    let twice = format!("0040 {SEVEN} {} {SEVEN}", "00".repeat(62));
    let refused = "refused 20 at 0 records=1013262003";
    let line = calls(&twice, "6b 00000007 65 6b 00000007");
    assert_eq!(line, format!("table {refused} emptied {ALL_FREE} looked 0 none {ALL_FREE}"));
}

#[test]
fn a_table_without_calls() {
    assert_eq!(calls("0000", ""), "table");
    assert_eq!(calls(&table(&[SEVEN]), ""), "table");
}

#[test]
fn cases_out_of_format_are_errors() {
    let refused = |op: u8, body: &str| assert!(answer(op, &from_hex(body)).is_err(), "{body}");
    // More than 200 records, fewer than the count says, and another mark.
    let most = |count: usize| format!("{count:04x} {}", "00".repeat(count));
    assert_eq!(calls(&most(200), ""), "table");
    refused(b't', &most(201));
    refused(b't', "");
    refused(b't', "00");
    refused(b't', "0002 00");
    refused(b't', "0001 01 00000007");
    refused(b't', "0001 02 00000007 02");
    // Another call, and calls that end early.
    for call in ["00", "6e", "6e 00000007", "6b 000000", "61", "61 00000001 00 00000001"] {
        refused(b't', &format!("0000 {call}"));
    }
    refused(b't', "0000 61 00011171 00 00000000");
    assert!(answer(b't', &from_hex("0000 61 00011170 00 00000000")).is_ok());
}

//! Cases of every op and their answers.

mod common;

use common::{bytes, case, run};

/// The cases and answers of a table: two lines each, with blank lines and comments between them.
fn rows(table: &str) -> Vec<(&str, &str)> {
    let lines: Vec<&str> = table.lines().filter(|line| !line.is_empty() && !line.starts_with('#')).collect();
    lines.chunks(2).map(|row| (row[0], row[1])).collect()
}

/// Every case is answered by its line, and by no more.
fn assert_answers(rows: &[(&str, &str)]) {
    let input: Vec<u8> = rows.iter().flat_map(|(given, _)| case(given.as_bytes()[0], &bytes(&given[1..]))).collect();
    let output = run(&input);
    assert_eq!(String::from_utf8_lossy(&output.stderr), "");
    let shown = String::from_utf8(output.stdout).expect("text");
    for ((given, line), answered) in rows.iter().zip(shown.lines()) {
        assert_eq!(answered, *line, "{given}");
    }
    assert_eq!(shown.matches('\n').count(), rows.len());
    assert_eq!(output.status.code(), Some(0));
}

#[test]
fn lines_of_the_table() {
    assert_answers(&rows(include_str!("lines.txt")));
}

/// Of 201 empty names, 200 are shown singly.
#[test]
fn more_names_than_are_shown() {
    let singly: String = (0..200).map(|i| format!(" name={}:0:0", 17 + 4 * i)).collect();
    let line = format!("success 2 readdir 0 817 parts=4177996864{singly} names=201:2070873251 end");
    assert_answers(&[("p 00000331 00 | 00000002 93 00000000 000000c9", &line)]);
}

/// The ids from 0 on, each an access: one of them is refused as outstanding, another for want of room.
#[test]
fn a_full_table() {
    let records: String = (0..64).map(|id| format!(" 01 {id:08x} 01")).collect();
    let calls = "6e 00000005 02 | 6e 00000040 02 | 61 00000009 ff 00000005 00000005 81 | 6e 00000040 02 | 6b 00000040";
    let line = "table refused 10 at 0 records=2314305030 refused 11 at 0 records=2314305030 \
                failure 5 129 -1 9 records=2590828552 entered records=1451327026 looked 64 2 records=1451327026";
    assert_answers(&[(&format!("t 0040{records} | {calls}"), line)]);
}

/// More records than a table has are lent as they are.
#[test]
fn the_most_records() {
    let records = " 00".repeat(200);
    assert_answers(&[(&format!("t 00c8{records} | 65"), "table refused 20 at 0 records=3227336545")]);
}

//! The program `second`, started as a program.

use std::process::{Command, Stdio};

use second::answer::answer;
use second::make::Cases;

const SECOND: &str = env!("CARGO_BIN_EXE_second");

/// Cases are made by one process and answered by another.
fn assert_piped(ops: &str, count: usize) {
    let mut make = Command::new(SECOND)
        .args(["make", "9", &count.to_string(), ops])
        .stdout(Stdio::piped())
        .spawn()
        .unwrap();
    let cases = make.stdout.take().unwrap();
    let answered = Command::new(SECOND).arg("answer").stdin(cases).output().unwrap();
    assert!(make.wait().unwrap().success() && answered.status.success());
    let mut wanted = String::new();
    for case in Cases::of(9, ops).take(count) {
        wanted += &(answer(case.op, &case.body).unwrap() + "\n");
    }
    assert!(answered.stdout == wanted.as_bytes());
}

#[test]
fn made_cases_are_answered_through_a_pipe() {
    assert_piped("qdl", 300);
    assert_piped("s", 900);
    assert_piped("to", 1_000);
}

#[test]
fn cases_out_of_format_end_with_1() {
    let text = format!("printf q | '{SECOND}' answer");
    let output = Command::new("sh").args(["-c", &text]).output().unwrap();
    assert_eq!(output.status.code(), Some(1));
    assert!(output.stdout.is_empty() && output.stderr.starts_with(b"second: "));
}

#[test]
fn wrong_arguments_end_with_2() {
    let wrong: [&[&str]; 6] = [
        &[],
        &["answer", "more"],
        &["make", "1"],
        &["make", "x", "1"],
        &["make", "1", "1", "z"],
        &["make", "1", "1", "q", "p"],
    ];
    for arguments in wrong {
        let output = Command::new(SECOND).args(arguments).output().unwrap();
        assert_eq!(output.status.code(), Some(2), "{arguments:?}");
        assert!(output.stdout.is_empty() && output.stderr.starts_with(b"usage: second "));
    }
}

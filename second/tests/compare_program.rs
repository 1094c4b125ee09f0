//! The program `compare` against the second program and against wrong ones.

use std::process::Command;
use std::time::{Duration, Instant};

use second::answer::answer;
use second::compare::{run, Plan, FAULT};
use second::hex::to_hex;
use second::make::{Cases, OPS};

const SECOND: &str = env!("CARGO_BIN_EXE_second");
const SEED: u64 = 42;
const COUNT: usize = 50;

/// The exit status of `compare` and what it prints.
fn compared(arguments: &[&str]) -> (i32, String) {
    let output = Command::new(env!("CARGO_BIN_EXE_compare")).args(arguments).output().unwrap();
    let printed = [output.stdout, output.stderr].concat();
    (output.status.code().unwrap(), String::from_utf8(printed).unwrap())
}

/// A shell script in which `$0` is the second program.
fn script(text: &str) -> (i32, String) {
    compared(&[&SEED.to_string(), &COUNT.to_string(), "sh", "-c", text, SECOND])
}

fn assert_found(text: &str, status: i32, words: &[&str]) {
    let (found, printed) = script(text);
    assert_eq!(found, status, "{text}: {printed}");
    for word in words {
        assert!(printed.contains(word), "{text}: {word} is missing in {printed}");
    }
}

/// This program's answer to a case, counted from 0.
fn line(number: usize) -> String {
    let case = Cases::fresh(SEED, OPS).nth(number).unwrap();
    answer(case.op, &case.body).unwrap()
}

#[test]
fn the_second_program_agrees_with_itself() {
    let wanted: [&[&str]; 6] = [
        &["1", "3000", SECOND, "answer"],
        &["--ops=dg", "2", "1", SECOND, "answer"],
        &["--ops=s", "3", "100", SECOND, "answer"],
        &["--fixed", "4", "3000", SECOND, "answer"],
        &["--fixed", "--ops=qs", "5", "9000", SECOND, "answer"],
        &["--fixed", "--ops=to", "6", "1000", SECOND, "answer"],
    ];
    for arguments in wanted {
        let (status, printed) = compared(arguments);
        assert_eq!(status, 0, "{printed}");
        assert!(printed.contains(" cases, no difference, "), "{printed}");
    }
}

#[test]
fn wrong_lines_are_differences() {
    let ours = format!("second  {}", line(4));
    let changed = format!("program x{}", line(4));
    let place = "difference in case 4 (the first is 0)";
    assert_found(r#""$0" answer | sed '5s/^/x/'"#, 1, &[place, &changed, &ours]);
    let next = format!("program {}", line(5));
    assert_found(r#""$0" answer | sed 5d"#, 1, &[place, &next, &ours]);
    assert_found(r#""$0" answer | sed '5s/ /  /'"#, 1, &[place, &ours]);
}

/// The cases of `make`, of which the program answers one wrongly.
#[test]
fn the_fixed_list_comes_first_where_it_is_asked_for() {
    let number = 7;
    for ops in [OPS, "s", "t", "o"] {
        let case = Cases::of(SEED, ops).nth(number).unwrap();
        let chosen = format!("--ops={ops}");
        let wrong = format!(r#""$0" answer | sed '{}s/^/x/'"#, number + 1);
        let (seed, count) = (SEED.to_string(), COUNT.to_string());
        let arguments = ["--fixed", &chosen, &seed, &count, "sh", "-c", &wrong, SECOND];
        let (status, printed) = compared(&arguments);
        assert_eq!(status, 1);
        let told = format!("difference in case {number} (the first is 0)");
        assert!(printed.contains(&told), "{printed}");
        assert!(printed.contains(&format!("\ncase    {}\n", to_hex(&case.framed()))), "{printed}");
    }
}

#[test]
fn a_line_too_many_is_told() {
    let words = ["the program printed a line too many: more"];
    assert_found(r#""$0" answer; echo more"#, 1, &words);
    assert_found(r#""$0" answer; printf more"#, 1, &words);
}

#[test]
fn a_line_without_end() {
    let place = "difference in case 49 ";
    let last = format!("program {} (no line end; the program ended with ", line(49));
    let text = r#"printf %s "$("$0" answer)""#;
    assert_found(text, 1, &[place, &last, "exit status: 0)"]);
    assert_found(&format!("{text}; exit 3"), 2, &[place, &last, "exit status: 3)"]);
}

#[test]
fn programs_that_end_early_are_faults() {
    let told = |status: &str| format!("program (no answer; the program ended with {status})");
    let first = "difference in case 0 (the first is 0)";
    assert_found("exit 0", 2, &[first, &told("exit status: 0")]);
    assert_found("exit 4", 2, &[first, &told("exit status: 4")]);
    assert_found("kill -9 $$", 2, &[first, &told("signal: 9 (SIGKILL)")]);
    assert_found("cat >/dev/null", 2, &[first, &told("exit status: 0")]);
    let last = ["difference in case 49 ", &told("exit status: 0")];
    assert_found(r#""$0" answer | sed '$d'"#, 2, &last);
}

#[test]
fn another_exit_status_is_a_fault() {
    let words = ["all answers agree, but the program ended with exit status: 3"];
    assert_found(r#""$0" answer; exit 3"#, 2, &words);
}

#[test]
fn a_program_that_does_not_start() {
    let (status, printed) = compared(&["1", "5", "/nowhere/program"]);
    assert_eq!(status, 2);
    assert!(printed.starts_with("cannot start /nowhere/program: "), "{printed}");
}

#[test]
fn a_silent_program_is_given_up() {
    let plan = Plan {
        seed: 1,
        count: 3,
        ops: OPS.to_string(),
        fixed: false,
        program: "sleep".to_string(),
        arguments: vec!["30".to_string()],
        limit: Duration::from_millis(200),
    };
    let begin = Instant::now();
    let (status, told) = run(&plan).unwrap_err();
    assert_eq!(status, FAULT);
    assert!(told.contains("program (nothing came in 0.2 seconds)"), "{told}");
    assert!(begin.elapsed() < Duration::from_secs(20));
}

#[test]
fn wrong_arguments() {
    let wrong: [&[&str]; 12] = [
        &[],
        &["1", "5"],
        &["1", "0", SECOND, "answer"],
        &["x", "5", SECOND, "answer"],
        &["1", "-5", SECOND, "answer"],
        &["--ops=", "1", "5", SECOND, "answer"],
        &["--ops=qz", "1", "5", SECOND, "answer"],
        &["--ops=q", "1", "5"],
        &["--fixed"],
        &["--fixed", "1", "5"],
        &["--fixed", "--fixed", "1", "5", SECOND, "answer"],
        &["--ops=q", "--fixed", "1", "5", SECOND, "answer"],
    ];
    for arguments in wrong {
        let (status, printed) = compared(arguments);
        assert_eq!(status, 2, "{arguments:?}");
        assert!(printed.starts_with("usage: compare "), "{printed}");
    }
}

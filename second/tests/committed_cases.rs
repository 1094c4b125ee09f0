//! The cases and answers of the ops `s` and `o` that the small program is tested
//! with are those that this program makes: `second make 1 960 so`, and `second answer`.

use std::fs;
use std::path::{Path, PathBuf};

use second::answer::answer_all;
use second::make::case::Case;
use second::make::{fixed_list, Cases};

const SEED: u64 = 1;
const COUNT: usize = 960;

/// The small program takes no more than this, and its memory for a body is more.
const MOST_BYTES: usize = 140_000;
const LONGEST_BODY: usize = 1_500;

fn committed(name: &str) -> PathBuf {
    Path::new(env!("CARGO_MANIFEST_DIR")).join("../crates/shown").join(name)
}

fn made() -> Vec<Case> {
    Cases::of(SEED, "so").take(COUNT).collect()
}

fn framed(cases: &[Case]) -> Vec<u8> {
    cases.iter().flat_map(Case::framed).collect()
}

#[test]
fn committed_cases_and_answers_are_made_here() {
    let cases = framed(&made());
    assert!(fs::read(committed("stdin")).unwrap() == cases, "the cases are to be made anew");
    let mut answers = Vec::new();
    answer_all(&cases[..], &mut answers).unwrap();
    assert!(fs::read(committed("stdout")).unwrap() == answers, "the answers are to be made anew");
}

#[test]
fn committed_cases_have_the_fixed_list_and_more() {
    assert!(fixed_list("so").len() < COUNT);
}

#[test]
fn committed_cases_are_small() {
    let cases = made();
    assert!(framed(&cases).len() < MOST_BYTES);
    assert!(cases.iter().all(|case| case.body.len() <= LONGEST_BODY));
}

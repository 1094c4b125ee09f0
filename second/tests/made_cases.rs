//! The cases of `make`: always the same by seed, within the bounds, and with
//! everything in them.

use std::collections::{BTreeMap, BTreeSet};

use second::answer::{answer, answer_all, LONGEST_BODY};
use second::make::{fixed_list, Cases, NAMED_OPS, OPS};

fn framed(seed: u64, count: usize) -> Vec<u8> {
    Cases::new(seed).take(count).flat_map(|case| case.framed()).collect()
}

/// The fixed list and many cases behind it.
const COUNT: usize = 17_000;

#[test]
fn every_case_has_one_line() {
    for seed in [1, 2] {
        let cases = framed(seed, COUNT);
        let mut answers = Vec::new();
        answer_all(&cases[..], &mut answers).unwrap();
        assert_eq!(answers.iter().filter(|byte| **byte == b'\n').count(), COUNT);
        assert!(answers.is_ascii());
    }
}

#[test]
fn seeds_decide() {
    let fixed = fixed_list(OPS).len();
    assert!(fixed <= COUNT - 2_000);
    assert_eq!(framed(5, COUNT), framed(5, COUNT));
    assert_ne!(framed(5, COUNT), framed(6, COUNT));
    assert_eq!(framed(5, fixed), framed(6, fixed));
}

#[test]
fn fresh_cases_are_those_behind_the_fixed_list() {
    for ops in [OPS, "dl", "s", "qs", "t", "o"] {
        let behind = Cases::of(4, ops).skip(fixed_list(ops).len()).map(|case| case.framed());
        let fresh = Cases::fresh(4, ops).map(|case| case.framed());
        assert!(behind.take(200).eq(fresh.take(200)));
    }
}

/// The ops of a run, first of its fixed list, then of those by a seed.
fn met(ops: &str) -> [BTreeSet<char>; 2] {
    let fresh = Cases::fresh(8, ops).take(1_000).collect();
    [fixed_list(ops), fresh].map(|cases| cases.iter().map(|case| char::from(case.op)).collect())
}

#[test]
fn every_op_is_made() {
    for ops in [OPS, NAMED_OPS, "s", "o", "t", "qs", "os", "tq"] {
        for met in met(ops) {
            assert_eq!(met, ops.chars().collect(), "{ops}");
        }
    }
    assert!(NAMED_OPS.chars().all(|op| !OPS.contains(op)));
}

#[test]
fn bounds_of_single_cases() {
    for case in Cases::new(3).take(COUNT).chain(Cases::fresh(4, OPS).take(6_000)) {
        assert!(case.body.len() <= LONGEST_BODY);
        let line = answer(case.op, &case.body).unwrap();
        assert!(!line.ends_with(' ') && !line.contains("  ") && !line.contains('\n'));
    }
}

/// The number of names that a reply's line tells.
fn count(line: &str) -> usize {
    let counted = line.split(" names=").nth(1).unwrap();
    counted.split(':').next().unwrap().parse().unwrap()
}

#[test]
fn many_random_replies_have_many_names() {
    let cases = Cases::fresh(6, "p").take(4_000);
    let counts: Vec<usize> =
        cases.map(|case| count(&answer(case.op, &case.body).unwrap())).collect();
    let within =
        |least, most| counts.iter().filter(|count| (least..=most).contains(*count)).count();
    assert!(within(5, 60) > 400);
    assert!(within(190, 210) > 10);
    assert!(within(1_000, 16_380) > 2);
}

/// The numbers of refusal that the answers to each op show.
fn refusals(ops: &str) -> BTreeMap<char, BTreeSet<u8>> {
    let mut found: BTreeMap<char, BTreeSet<u8>> = BTreeMap::new();
    for case in fixed_list(ops) {
        let line = answer(case.op, &case.body).unwrap();
        let numbers = found.entry(char::from(case.op)).or_default();
        // A listing may tell a refusal behind its own words, and a table several.
        for told in line.split("refused ").skip(1) {
            numbers.insert(told.split(' ').next().unwrap().parse().unwrap());
        }
    }
    found
}

#[test]
fn the_fixed_list_has_every_refusal_of_every_op() {
    let wanted: [(char, &[u8]); 14] = [
        ('c', &[2, 5, 7]),
        ('d', &[2, 5, 7, 8, 9]),
        ('e', &[7]),
        ('f', &[1, 7]),
        ('g', &[1, 2, 3, 4, 5, 6, 7]),
        ('l', &[1, 2, 4, 5, 7]),
        // A message of `o` is never too long.
        ('o', &[1, 3, 4, 5, 6, 10, 11, 12, 13, 20]),
        ('p', &[1, 2, 3, 4, 5, 6]),
        ('q', &[1, 2, 4, 5]),
        ('r', &[2, 5, 6, 7, 8]),
        ('t', &[1, 2, 3, 4, 5, 6, 10, 11, 12, 13, 20]),
        ('u', &[3, 7]),
        ('w', &[2, 5, 7]),
        ('x', &[3, 7, 8]),
    ];
    let found = refusals(&format!("{OPS}o"));
    assert_eq!(found.len(), wanted.len());
    for (op, numbers) in wanted {
        assert!(found[&op].iter().eq(numbers), "op {op}: {:?}", found[&op]);
    }
}

#[test]
fn the_fixed_list_accepts_every_method() {
    let mut methods = BTreeSet::new();
    for case in fixed_list(OPS) {
        let line = answer(case.op, &case.body).unwrap();
        let words: Vec<&str> = line.split(' ').collect();
        if words[0] == "known" || words[0] == "success" {
            methods.insert((case.op, words[2].to_string()));
        }
    }
    // 23 requests, and 22 successes: getcreds shows credentials.
    assert_eq!(methods.len(), 23 + 22);
}

use crate::common::{median, RUNS};
use std::hint::black_box;
use std::time::Instant;

/// A run repeats its call until it takes so long, since the clock is too coarse for one call.
const LEAST_NANOSECONDS: f64 = 100_000.0;

/// Prints what is timed, and the heads of the columns.
pub fn title(name: &str) {
    title_of(name, ["ordinary ns", "proved ns"]);
}

/// The same with other heads: of what is divided by, and of what is divided.
pub fn title_of(name: &str, [theirs, ours]: [&str; 2]) {
    println!("{name}");
    println!("{:<32} {theirs:>12} {ours:>12} {:>7}", "", "ratio");
}

/// Times both sides in turns, and prints the medians and their ratio.
pub fn row<A, B>(name: &str, mut ours: impl FnMut() -> A, mut theirs: impl FnMut() -> B) {
    let calls = calls_for(&mut theirs);
    turns(name, || nanoseconds(calls, &mut ours), || nanoseconds(calls, &mut theirs));
}

/// Takes the times of both sides in turns, and prints the medians and their ratio.
pub fn turns(name: &str, mut ours: impl FnMut() -> f64, mut theirs: impl FnMut() -> f64) {
    let (mut our_times, mut their_times) = (Vec::new(), Vec::new());
    for _ in 0..RUNS {
        their_times.push(theirs());
        our_times.push(ours());
    }
    let (ours, theirs) = (median(our_times), median(their_times));
    println!("{name:<32} {theirs:>12.1} {ours:>12.1} {:>7.2}", ours / theirs);
}

/// How many calls take long enough to be timed.
fn calls_for<A>(call: &mut impl FnMut() -> A) -> u32 {
    let mut calls = 1;
    while nanoseconds(calls, call) * f64::from(calls) < LEAST_NANOSECONDS {
        calls *= 2;
    }
    calls
}

/// The time for one of so many calls.
fn nanoseconds<A>(calls: u32, call: &mut impl FnMut() -> A) -> f64 {
    let start = Instant::now();
    for _ in 0..calls {
        black_box(call());
    }
    start.elapsed().as_nanos() as f64 / f64::from(calls)
}

//! Compares `well_formed_end` of crate `text` with an ordinary Rust loop, as a ratio in one run.
//! Both look at 60,000 bytes in one call; the median of 101 calls counts. The texts are random and fixed by a seed.
mod common;
use common::{median, Random, PADDING, RUNS, SEED};
use std::hint::black_box;
use std::time::Instant;

extern "C" {
    fn tushalets_well_formed_end(text: *const u8, text_len: usize) -> usize;
}

#[inline(never)]
fn proved(text: &[u8]) -> usize {
    // SAFETY: the pointer and the length are those of one slice, which lives through the call.
    unsafe { tushalets_well_formed_end(text.as_ptr(), text.len()) }
}

#[inline(never)]
fn ordinary(text: &[u8]) -> usize {
    common::well_formed_end(text)
}

/// A text of at least `len` bytes, with characters from the ranges, each range as often as it is listed.
fn text_of(len: usize, ranges: &[(u32, u32)], random: &mut Random) -> Vec<u8> {
    let mut text = String::new();
    while text.len() < len {
        let (lo, hi) = ranges[random.below(ranges.len())];
        text.extend(char::from_u32(lo + random.below((hi - lo + 1) as usize) as u32));
    }
    text.into_bytes()
}

const ASCII: (u32, u32) = (0x20, 0x7e);
const TWO: (u32, u32) = (0x80, 0x7ff);
const THREE: (u32, u32) = (0x800, 0xffff);
const FOUR: (u32, u32) = (0x1_0000, 0x10_ffff);

const LEN: usize = 60_000;
const DAMAGED: usize = 100_000;

/// Both give the same end, and that of the standard library, on damaged texts.
fn agree(random: &mut Random) {
    for _ in 0..DAMAGED {
        let mut text = text_of(40, &[ASCII, TWO, THREE, FOUR], random);
        let place = random.below(text.len());
        text[place] = random.below(256) as u8;
        text.truncate(random.below(text.len() + 1));
        let end = std::str::from_utf8(&text).map_or_else(|e| e.valid_up_to(), str::len);
        assert_eq!((proved(&text), ordinary(&text)), (end, end), "{text:02x?}");
    }
}

fn nanoseconds(end_of: fn(&[u8]) -> usize, text: &[u8]) -> f64 {
    let start = Instant::now();
    let end = end_of(black_box(text));
    let took = start.elapsed().as_nanos();
    assert_eq!(black_box(end), text.len());
    took as f64
}

fn main() {
    let mut random = Random(SEED);
    agree(&mut random);
    println!("text check, code {PADDING} bytes further; same ends on {DAMAGED} damaged texts");
    println!("{:<24} {:>14} {:>14} {:>7}", "characters", "ordinary MB/s", "proved MB/s", "ratio");
    let kinds: [(&str, &[(u32, u32)]); 5] = [
        ("ASCII", &[ASCII]),
        ("2 bytes", &[TWO]),
        ("3 bytes", &[THREE]),
        ("4 bytes", &[FOUR]),
        ("mixed", &[ASCII, ASCII, TWO, THREE, FOUR]),
    ];
    for (name, ranges) in kinds {
        let text = text_of(LEN, ranges, &mut random);
        let (mut ours, mut theirs) = (Vec::new(), Vec::new());
        for _ in 0..RUNS {
            theirs.push(nanoseconds(ordinary, &text));
            ours.push(nanoseconds(proved, &text));
        }
        let (ours, theirs) = (median(ours), median(theirs));
        let rate = |time: f64| text.len() as f64 * 1000.0 / time;
        println!("{name:<24} {:>14.0} {:>14.0} {:>7.2}", rate(theirs), rate(ours), ours / theirs);
    }
}

//! What the programs share: the place of the code, texts by a seed, the ordinary text check, and the median.

/// Bytes of a cache line.
const CACHE_LINE: usize = 64;

/// Bytes of padding before all other code. A loop takes longer where it lies across two cache lines, and the linker
/// decides where that is; a program is built with each padding to see by how much.
pub const PADDING: usize = 16 * cfg!(feature = "shift_16") as usize + 32 * cfg!(feature = "shift_32") as usize;

// The section is retained (R), since nothing calls into it. It has a cache line more than the padding, so that it is
// never empty.
std::arch::global_asm!(
    r#".pushsection .text.bench_padding, "axR", @progbits"#,
    ".balign {line}",
    ".skip {line} + {padding}",
    ".popsection",
    line = const CACHE_LINE,
    padding = const PADDING,
);

/// How often each side is timed; the median counts.
pub const RUNS: usize = 101;

pub fn median(mut times: Vec<f64>) -> f64 {
    times.sort_by(f64::total_cmp);
    times[times.len() / 2]
}

/// Xorshift: the same inputs in every run.
pub struct Random(pub u64);

pub const SEED: u64 = 0x2545_f491_4f6c_dd1d;

impl Random {
    pub fn below(&mut self, n: usize) -> usize {
        self.0 ^= self.0 << 13;
        self.0 ^= self.0 >> 7;
        self.0 ^= self.0 << 17;
        (self.0 % n as u64) as usize
    }
}

/// Where the longest well-formed beginning of a text ends: safe Rust as one would write it from the eight ranges of
/// RFC 3629.
#[inline]
pub fn well_formed_end(text: &[u8]) -> usize {
    let within = |at: usize, lo: u8, hi: u8| text.get(at).is_some_and(|b| (lo..=hi).contains(b));
    let tail = |at: usize| within(at, 0x80, 0xbf);
    let mut at = 0;
    while at < text.len() {
        at += match text[at] {
            0x00..=0x7f => 1,
            0xc2..=0xdf if tail(at + 1) => 2,
            0xe0 if within(at + 1, 0xa0, 0xbf) && tail(at + 2) => 3,
            0xe1..=0xec | 0xee..=0xef if tail(at + 1) && tail(at + 2) => 3,
            0xed if within(at + 1, 0x80, 0x9f) && tail(at + 2) => 3,
            0xf0 if within(at + 1, 0x90, 0xbf) && tail(at + 2) && tail(at + 3) => 4,
            0xf1..=0xf3 if tail(at + 1) && tail(at + 2) && tail(at + 3) => 4,
            0xf4 if within(at + 1, 0x80, 0x8f) && tail(at + 2) && tail(at + 3) => 4,
            _ => return at,
        };
    }
    at
}

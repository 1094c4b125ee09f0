//! The proved text check and the one of `core` end at the same place.

mod random;
mod texts;

use random::Random;
use texts::{random_text, EDGES};

const RANDOM_SEQUENCES: usize = 200_000;

fn compare(text: &[u8]) {
    let expected = match core::str::from_utf8(text) {
        Ok(text) => text.len(),
        Err(error) => error.valid_up_to(),
    };
    assert_eq!(tushalets::well_formed_end(text), expected, "{text:02x?}");
}

#[test]
fn every_sequence_of_up_to_three_edges() {
    compare(&[]);
    for a in EDGES {
        compare(&[a]);
        for b in EDGES {
            compare(&[a, b]);
            for c in EDGES {
                compare(&[a, b, c]);
            }
        }
    }
}

#[test]
fn random_sequences() {
    let mut random = Random(0x9e37_79b9_7f4a_7c15);
    for _ in 0..RANDOM_SEQUENCES {
        compare(&random_text(&mut random));
    }
}

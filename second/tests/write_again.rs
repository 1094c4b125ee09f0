//! Writing what was read gives the known part again, and what was written
//! reads back the same. The answers of the `g` cases stand for both.

mod common;

use common::*;
use second::answer::answer;
use second::hash::hash;
use second::make::Cases;

#[test]
fn accepted_messages_come_back() {
    let mut stored = 0;
    for case in Cases::new(11).take(18_000).filter(|case| case.op == b'g') {
        let mut message = message_at(&case.body, 5);
        let request = case.body[0] == 0;
        let known = if request { request_known(&message) } else { reply_known(&message) };
        let Some(known) = known else { continue };
        if request && message[4] == 0x0a {
            // True is written as 1.
            let flag = known - 9;
            message[flag] = u8::from(message[flag] != 0);
        }
        let line = answer(case.op, &case.body).unwrap();
        let room = u32::from_be_bytes(case.body[1..5].try_into().unwrap()) as usize;
        if room < known {
            assert!(line.starts_with("refused 7 at 0 "), "{line}");
        } else {
            assert!(line.starts_with(&format!("stored {known} {} ", hash(&message[..known]))));
            stored += 1;
        }
    }
    assert!(stored > 500);
}

#[test]
fn refused_messages_keep_their_refusal() {
    let mut refused = 0;
    for case in Cases::new(12).take(18_000).filter(|case| case.op == b'g') {
        let reader = if case.body[0] == 0 { b'q' } else { b'p' };
        let read = answer(reader, &case.body[5..]).unwrap();
        if read.starts_with("refused") {
            let again = answer(case.op, &case.body).unwrap();
            assert_eq!(read.split(" parts=").next().unwrap(), again);
            refused += 1;
        }
    }
    assert!(refused > 100);
}

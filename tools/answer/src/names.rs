//! The names of a readdir reply, one after another by the iterator; there are none on any other message.

use crate::checksum::{checksum, Checksum};
use crate::fields::start_of;
use tushalets::{raw, Names};

/// So many names are shown singly.
const SHOWN_SINGLY: usize = 200;

/// So many names are also taken by their number.
const TAKEN_BY_NUMBER: usize = 64;

/// Where the first name of a readdir reply stands.
const FIRST_NAME: usize = 13;

/// Of a message without names: with none left, two steps from where the first would be find none.
pub fn show_none(message: &[u8]) -> String {
    let first = raw::next_name(message, FIRST_NAME, 0);
    let second = raw::next_name(message, first.at, first.left);
    let end = if first.found == 0 && second.found == 0 { "end" } else { "again" };
    format!(" names=0:0 {end}")
}

pub fn show(message: &[u8], mut names: Names<'_>) -> String {
    let opened = names.clone();
    let mut line = String::new();
    let mut sum = Checksum::default();
    let mut count = 0;
    for name in names.by_ref() {
        let (start, len, hash) = (start_of(message, name.as_bytes()), name.len(), checksum(name.as_bytes()));
        if count < SHOWN_SINGLY {
            line += &format!(" name={start}:{len}:{hash}");
        }
        sum.add_number(start as u64);
        sum.add_number(len as u64);
        sum.add_number(hash);
        count += 1;
    }
    let stays = names.next().is_none() && names.next().is_none();
    let end = if stays && agrees_by_number(&opened, count) { "end" } else { "again" };
    line + &format!(" names={count}:{} {end}", sum.value())
}

/// A name by its number is the one that the steps come to, there is none behind the last, and the iterator told
/// beforehand how many there are.
fn agrees_by_number(opened: &Names<'_>, count: usize) -> bool {
    let same = |(i, name)| opened.clone().nth(i) == Some(name);
    opened.clone().take(TAKEN_BY_NUMBER).enumerate().all(same)
        && opened.clone().nth(count).is_none()
        && opened.len() == count
}

//! Compares the message layer, through crate `tushalets`, with an ordinary Rust program: first their answers, then the
//! time for a message, as a ratio in one run. The two sides take turns; the median of 101 runs counts.
mod agreement;
#[path = "../../common.rs"]
mod common;
mod messages;
mod ordinary;
mod timing;

use common::{Random, PADDING, SEED};
use messages::ID;
use std::hint::black_box;
use timing::{row, title, title_of};
use tushalets::{NameRun, Received, Refusal, Reply, Request, Success, LONGEST};

/// The data of the read replies, and the names of the two directories.
const DATA: [u8; 4096] = [0x7f; 4096];
const SHORT_NAME: usize = 8;
const LONG_NAME: usize = 255;

/// The length of the path that is read as good and as bad text.
const LONG_PATH: usize = 4_000;

fn main() {
    tushalets::check_version().expect("the library fits");
    let mut random = Random(SEED);
    let count = agreement::compare(&mut random);
    title(&format!("layer, code {PADDING} bytes further; same answers on {count} messages"));
    for (name, request) in [("access", messages::ACCESS), ("rename", messages::RENAME), ("read", messages::READ)] {
        time_read_request(&format!("read {name} request"), &request);
    }
    time_read_request("read write request of 4,096", &messages::write(&DATA));
    time_read_reply("read getattr reply", &messages::reply(&messages::GETATTR_REPLY));
    time_read_reply("read read reply of 4,096", &messages::reply(&messages::read_reply(&DATA)));
    for len in [SHORT_NAME, LONG_NAME] {
        time_directory(&format!("read readdir reply, names of {len}"), &messages::long_directory(len));
    }
    time_write_request("write access request", &messages::ACCESS);
    time_write_request("write write request of 4,096", &messages::write(&DATA));
    time_write_reply("write getattr reply", &messages::GETATTR_REPLY);
    time_write_reply("write read reply of 4,096", &messages::read_reply(&DATA));
    time_front("front, good getattr request", &messages::GETATTR);
    time_bad_paths();
}

/// A long path: read against the ordinary program, then the bad ones against the good one, both by the proved reader.
fn time_bad_paths() {
    let good = messages::long_path(LONG_PATH, None);
    time_read_message("path of 4,000, good", &good);
    let bad = [("first", 0), ("middle", LONG_PATH / 2), ("last", LONG_PATH - 1)]
        .map(|(name, place)| (name, messages::long_path(LONG_PATH, Some(place))));
    for (name, message) in &bad {
        time_read_message(&format!("path of 4,000, {name} byte bad"), message);
    }
    title_of("proved, a bad path against a good one", ["good ns", "bad ns"]);
    for (name, message) in &bad {
        let read = |message| tushalets::read_request(black_box(message));
        row(&format!("path of 4,000, {name} byte bad"), || read(message), || read(&good));
    }
}

fn time_read_request(name: &str, request: &Request<'_>) {
    time_read_message(name, &messages::request(request));
}

fn time_read_message(name: &str, message: &[u8]) {
    agreement::compare_message(message, &mut Random(SEED));
    row(name, || tushalets::read_request(black_box(message)), || ordinary::read_request(black_box(message)));
}

fn time_read_reply(name: &str, message: &[u8]) {
    agreement::compare_message(message, &mut Random(SEED));
    row(name, || tushalets::read_reply(black_box(message)), || ordinary::read_reply(black_box(message)));
}

/// A directory read, and all its names taken one after another.
fn time_directory(name: &str, message: &[u8]) {
    agreement::compare_message(message, &mut Random(SEED));
    row(
        name,
        || take_names(tushalets::read_reply(black_box(message))),
        || take_names(ordinary::read_reply(black_box(message))),
    );
}

#[inline]
fn take_names<'a, N: Iterator<Item = &'a str>>(answer: Result<Received<Reply<'a, N>>, Refusal>) {
    let Ok(Received { body: Reply::Success { success: Success::Readdir(names), .. }, .. }) = answer else {
        panic!("the reply has names");
    };
    for name in names {
        black_box(name);
    }
}

fn time_write_request(name: &str, request: &Request<'_>) {
    agreement::compare_request_writers(ID, request, LONGEST);
    let (mut ours, mut theirs) = (vec![0; LONGEST], vec![0; LONGEST]);
    row(
        name,
        || tushalets::write_request(black_box(ID), black_box(request), black_box(&mut ours)),
        || ordinary::write_request(black_box(ID), black_box(request), black_box(&mut theirs)),
    );
}

fn time_write_reply(name: &str, reply: &Reply<'_, NameRun<'_>>) {
    agreement::compare_reply_writers(ID, reply, LONGEST);
    let (mut ours, mut theirs) = (vec![0; LONGEST], vec![0; LONGEST]);
    row(
        name,
        || tushalets::write_reply(black_box(ID), black_box(reply), black_box(&mut ours)),
        || ordinary::write_reply(black_box(ID), black_box(reply), black_box(&mut theirs)),
    );
}

fn time_front(name: &str, request: &Request<'_>) {
    let message = messages::request(request);
    agreement::compare_fronts(&message, LONGEST);
    let (mut ours, mut theirs) = (vec![0; LONGEST], vec![0; LONGEST]);
    row(
        name,
        || tushalets::front(black_box(&message), black_box(&mut ours)),
        || ordinary::front(black_box(&message), black_box(&mut theirs)),
    );
}

//! Before anything is timed: both sides give the same answers and store the same bytes, on good and damaged messages.
use crate::common::Random;
use crate::{messages, ordinary};
use tushalets::{NameRun, Received, Refusal, Reply, Request, Success, LONGEST};

/// Damaged copies of each message.
const COPIES: usize = 2_000;

/// Room beyond a message's own length, for a failure in place of a short message.
const SPARE: usize = 16;

/// More bytes than stand around the data of a message with a path of one byte.
const NEAR_LIMIT: usize = 32;

const FILLING: u8 = 0xaa;

/// Compares both sides on each message and its damaged copies, and answers how many messages that were.
pub fn compare(random: &mut Random) -> usize {
    let requests = messages::requests();
    let replies = messages::replies();
    let messages = requests.iter().map(messages::request).chain(replies.iter().map(messages::reply));
    let mut count = 0;
    for message in messages {
        compare_message(&message, random);
        for _ in 0..COPIES {
            compare_message(&damaged(&message, random), random);
        }
        count += 1 + COPIES;
    }
    compare_limits(random);
    count
}

/// Messages around the longest length, read and to be written.
fn compare_limits(random: &mut Random) {
    for len in [LONGEST, LONGEST + 1] {
        let mut message = messages::request(&Request::Getcreds);
        message.resize(len, 0);
        compare_message(&message, random);
    }
    let data = [0; LONGEST];
    for len in LONGEST - NEAR_LIMIT..=LONGEST {
        let data = &data[..len];
        compare_request_writers(0, &Request::Write { path: "/", data, offset: 0, handle: 0 }, LONGEST);
        compare_reply_writers(0, &messages::read_reply(data), LONGEST);
    }
}

/// A copy with up to two other bytes, cut or with bytes behind it.
pub fn damaged(message: &[u8], random: &mut Random) -> Vec<u8> {
    let mut copy = message.to_vec();
    for _ in 0..random.below(3) {
        let place = random.below(copy.len());
        copy[place] = random.below(256) as u8;
    }
    match random.below(3) {
        0 => copy.truncate(random.below(copy.len() + 1)),
        1 => copy.extend([0; 3]),
        _ => {}
    }
    copy
}

/// Both readers and the front on one message, and what was read written again.
pub fn compare_message(message: &[u8], random: &mut Random) {
    let room = message.len() + SPARE;
    let read = tushalets::read_request(message);
    assert_eq!(read, ordinary::read_request(message), "request {message:02x?}");
    if let Ok(Received { id, body, .. }) = read {
        compare_request_writers(id, &body, room);
        compare_request_writers(id, &body, random.below(room));
        compare_request_writers(id, &Request::Unknown { type_number: random.below(256) as u8 }, room);
    }
    let read = tushalets::read_reply(message).map(collected);
    assert_eq!(read, ordinary::read_reply(message).map(collected), "reply {message:02x?}");
    if let Ok(Received { id, body, .. }) = read {
        write_again(id, body, room, random);
    }
    let failure = Reply::Failure { type_number: random.below(256) as u8, code: random.below(3) as i32 - 2 };
    compare_reply_writers(0, &failure, room);
    compare_fronts(message, random.below(SPARE));
}

/// A reply that was read, written again; then with less room, with another result and with other lengths.
fn write_again(id: u32, reply: Reply<'_, Vec<&str>>, room: usize, random: &mut Random) {
    let (mut names, mut lengths) = (Vec::new(), Vec::new());
    let reply = reply.map_names(|list| {
        names = list.concat().into_bytes();
        lengths = list.iter().map(|name| name.len() as u32).collect();
        NameRun { names: &names, lengths: &lengths }
    });
    compare_reply_writers(id, &reply, room);
    compare_reply_writers(id, &reply, random.below(room));
    let Reply::Success { success, .. } = reply else { return };
    compare_reply_writers(id, &Reply::Success { result: random.below(3) as i32 - 1, success }, room);
    let Success::Readdir(NameRun { names, .. }) = success else { return };
    let first = random.below(names.len() + 1) as u32;
    for last in [names.len() as u32 - first, u32::MAX] {
        let success = Success::Readdir(NameRun { names, lengths: &[first, last] });
        compare_reply_writers(id, &Reply::Success { result: 0, success }, room);
    }
}

pub fn compare_request_writers(id: u32, request: &Request<'_>, room: usize) {
    let ours = |out: &mut [u8]| tushalets::write_request(id, request, out);
    same_stores(room, ours, |out| ordinary::write_request(id, request, out));
}

pub fn compare_reply_writers(id: u32, reply: &Reply<'_, NameRun<'_>>, room: usize) {
    let ours = |out: &mut [u8]| tushalets::write_reply(id, reply, out);
    same_stores(room, ours, |out| ordinary::write_reply(id, reply, out));
}

pub fn compare_fronts(message: &[u8], room: usize) {
    same_stores(room, |out| tushalets::front(message, out), |out| ordinary::front(message, out));
}

/// Both tell the same, and leave the same bytes in a buffer that was filled before.
fn same_stores<T: PartialEq + std::fmt::Debug>(
    room: usize,
    ours: impl Fn(&mut [u8]) -> Result<T, Refusal>,
    theirs: impl Fn(&mut [u8]) -> Result<T, Refusal>,
) {
    let (mut our_buffer, mut their_buffer) = (vec![FILLING; room], vec![FILLING; room]);
    assert_eq!(ours(&mut our_buffer), theirs(&mut their_buffer));
    assert_eq!(our_buffer, their_buffer);
}

/// A reply with its names in a list.
pub fn collected<'a, N: Iterator<Item = &'a str>>(
    received: Received<Reply<'a, N>>,
) -> Received<Reply<'a, Vec<&'a str>>> {
    let Received { id, known, body } = received;
    Received { id, known, body: body.map_names(N::collect) }
}

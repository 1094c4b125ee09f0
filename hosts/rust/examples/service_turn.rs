//! Turns of a service: requests go out, and replies arrive in whatever order the provider answers. A request is entered
//! into the table before it goes out; a reply is taken where one of them waits for it, and any other is told.
//!
//! Run it with `cargo run --example service_turn`.
use std::error::Error;
use tushalets::numbers::types;
use tushalets::{write_reply, write_request, NameRun, Outstanding, Refusal, Reply, Request, Success};

const FILE: &str = "/hello";
const HANDLE: u64 = 1;
const NO_SUCH_FILE: i32 = -2;
const NO_METHOD: u8 = 0x42;

/// Bytes that hold each message here.
const ROOM: usize = 64;

fn main() -> Result<(), Box<dyn Error>> {
    tushalets::check_version()?;
    let mut outstanding = Outstanding::new();
    let requests = [
        (1, Request::Open { path: FILE, flags: 0 }),
        (2, Request::Getattr { path: "/missing" }),
        (3, Request::Unknown { type_number: NO_METHOD }),
        (2, Request::Readdir { path: "/" }),
    ];
    for (id, request) in &requests {
        show_sent(&mut outstanding, *id, request);
    }
    println!("outstanding: {outstanding:?}\n");

    let opened = Reply::Success { result: 0, success: Success::Open { handle: HANDLE } };
    let missing = Reply::Failure { type_number: types::GETATTR_REPLY, code: NO_SUCH_FILE };
    for (id, reply) in [(2, missing), (9, opened), (1, missing), (3, Reply::UnknownResponse), (1, opened), (1, opened)]
    {
        show_received(&mut outstanding, id, &reply)?;
    }
    // Fewer bytes than id and type have.
    show_arrived(&mut outstanding, &[0, 0, 0, 1]);
    println!("outstanding: {outstanding:?}\n");

    show_sent(&mut outstanding, 1, &Request::Release { path: FILE, handle: HANDLE });
    println!("outstanding: {outstanding:?}");
    Ok(())
}

/// Writes a request and enters it. Then the message goes to the provider.
fn send(outstanding: &mut Outstanding, id: u32, request: &Request<'_>) -> Result<usize, Refusal> {
    let mut message = [0; ROOM];
    let len = write_request(id, request, &mut message)?;
    outstanding.enter(id, request.type_number())?;
    Ok(len)
}

fn show_sent(outstanding: &mut Outstanding, id: u32, request: &Request<'_>) {
    match send(outstanding, id, request) {
        Ok(len) => println!("sent {id}: {request:?}, {len} bytes"),
        Err(refusal) => println!("not sent {id}: {request:?}, {refusal}"),
    }
}

/// The provider's reply, written, arrives.
fn show_received(outstanding: &mut Outstanding, id: u32, reply: &Reply<'_, NameRun<'_>>) -> Result<(), Refusal> {
    let mut message = [0; ROOM];
    let len = write_reply(id, reply, &mut message)?;
    show_arrived(outstanding, &message[..len]);
    Ok(())
}

fn show_arrived(outstanding: &mut Outstanding, message: &[u8]) {
    match outstanding.arrive(message) {
        Ok(received) => println!("reply to {}: {:?}, {} left", received.id, received.body, outstanding.len()),
        Err(refusal) => println!("no reply: {refusal}, {} left", outstanding.len()),
    }
}

//! Turns of a provider: a request comes in, a reply goes out. The front answers what needs no file system. Then the
//! service's side reads the reply.
//!
//! Run it with `cargo run --example provider_turn`.
use std::error::Error;
use tushalets::{front, list_request, read_reply, read_request, write_reply, write_request};
use tushalets::{Fronted, NameRun, Refusal, Reply, Request, Success, LONGEST, LONGEST_LISTING};

const FILE: &str = "/hello";
const CONTENT: &[u8] = b"hello, world";
const HANDLE: u64 = 1;

const CREDENTIALS: &str = "{}";

const NO_SUCH_FILE: i32 = -2;
const READ_ONLY: i32 = -30;
const NOT_IMPLEMENTED: i32 = -38;

fn main() -> Result<(), Box<dyn Error>> {
    tushalets::check_version()?;
    let requests = [
        Request::Readdir { path: "/" },
        Request::Open { path: FILE, flags: 0 },
        Request::Read { path: FILE, buffer_size: 5, offset: 7, handle: HANDLE },
        Request::Open { path: "/other", flags: 0 },
        Request::Unlink { path: FILE },
        Request::Getcreds,
        Request::Unknown { type_number: 0x42 },
    ];
    let mut message = [0; LONGEST];
    for (id, request) in (1..).zip(&requests) {
        let len = write_request(id, request, &mut message)?;
        show_turn(&message[..len])?;
    }
    let damaged = [0, 0, 0, 8, 0x0f, 0, 0, 0, 9, b'/'];
    show_turn(&damaged)
}

/// One request in, the length of the reply in `out`.
fn turn(message: &[u8], out: &mut [u8]) -> Result<usize, Refusal> {
    match front(message, out)? {
        Fronted::Stored(len) => Ok(len),
        Fronted::HandedOn => {
            let received = read_request(message)?;
            write_reply(received.id, &serve(&received.body), out)
        }
    }
}

/// A file system of one file that is only read.
fn serve(request: &Request<'_>) -> Reply<'static, NameRun<'static>> {
    let fail = |code| Reply::Failure { type_number: request.reply_type_number(), code };
    match *request {
        Request::Readdir { path: "/" } => {
            let names = NameRun { names: b"...hello", lengths: &[1, 2, 5] };
            Reply::Success { result: 0, success: Success::Readdir(names) }
        }
        Request::Open { path: FILE, .. } => Reply::Success { result: 0, success: Success::Open { handle: HANDLE } },
        Request::Read { handle: HANDLE, buffer_size, offset, .. } => {
            let data = CONTENT.get(offset as usize..).unwrap_or(&[]);
            let data = &data[..data.len().min(buffer_size as usize)];
            Reply::Success { result: data.len() as i32, success: Success::Read { data } }
        }
        // The reply of getcreds has no result, so it cannot fail.
        Request::Getcreds => Reply::Credentials { creds: CREDENTIALS },
        Request::Open { .. } => fail(NO_SUCH_FILE),
        Request::Unlink { .. } | Request::Write { .. } => fail(READ_ONLY),
        _ => fail(NOT_IMPLEMENTED),
    }
}

/// Prints the listing of a request, and what the service reads in the reply.
fn show_turn(message: &[u8]) -> Result<(), Box<dyn Error>> {
    let mut listing = [0; LONGEST_LISTING];
    let len = list_request(message, &mut listing)?;
    print!("{}", std::str::from_utf8(&listing[..len])?);

    let mut out = [0; LONGEST];
    let len = turn(message, &mut out)?;
    let received = read_reply(&out[..len])?;
    println!("reply to {}: {:?}\n", received.id, received.body);
    Ok(())
}

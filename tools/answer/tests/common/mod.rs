//! Cases for the program, and runs of it.
#![allow(dead_code)] // Each test uses some of these.

use std::io::{Read, Write};
use std::process::{Child, Command, Output, Stdio};

/// Bytes from hex digits. Blanks and bars stand between them for the reader alone.
pub fn bytes(hex: &str) -> Vec<u8> {
    let digits: Vec<u32> = hex.chars().filter(|c| !matches!(c, ' ' | '|')).map(|c| c.to_digit(16).unwrap()).collect();
    digits.chunks(2).map(|pair| (pair[0] * 16 + pair[1]) as u8).collect()
}

/// A case as it stands in the input.
pub fn case(op: u8, body: &[u8]) -> Vec<u8> {
    let mut case = vec![op];
    case.extend((body.len() as u32).to_be_bytes());
    case.extend(body);
    case
}

pub fn start() -> Child {
    Command::new(env!("CARGO_BIN_EXE_answer"))
        .stdin(Stdio::piped())
        .stdout(Stdio::piped())
        .stderr(Stdio::piped())
        .spawn()
        .expect("the program starts")
}

/// Runs the program on an input that a pipe holds.
pub fn run(input: &[u8]) -> Output {
    let mut child = start();
    child.stdin.take().expect("a pipe").write_all(input).expect("the program reads");
    child.wait_with_output().expect("the program ends")
}

/// The next line that the program prints, while its input is still open.
pub fn next_line(child: &mut Child) -> String {
    let stdout = child.stdout.as_mut().expect("a pipe");
    let mut line = Vec::new();
    let mut byte = [0];
    while stdout.read(&mut byte).expect("the program writes") == 1 && byte != *b"\n" {
        line.extend(byte);
    }
    String::from_utf8(line).expect("text")
}

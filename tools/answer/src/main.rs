//! Answers the cases of standard input through the crate `tushalets`, a line each. Cases and lines are those of
//! `second/FORMAT.md`, and nothing else is shared with the program that the lines are compared with.
//!
//! It ends with 0 at the end of the input, and with 2 at a case that does not keep the format, at input or output that
//! fails, or where the linked library has another version.

mod again;
mod body;
mod checksum;
mod fields;
mod given;
mod input;
mod lent;
mod methods;
mod names;
mod outcome;
mod reading;
mod shown;
mod table;
mod writing;

use body::{Body, Malformed};
use input::Input;
use std::fmt;
use std::io::{self, BufWriter, Read, Write};
use std::process::ExitCode;

/// The status of a run that could not answer all of its input.
const STATUS_FAILED: u8 = 2;

/// Answers are written in pieces of about this many bytes.
const OUTPUT_CAPACITY: usize = 1 << 16;

fn main() -> ExitCode {
    if let Err(wrong) = tushalets::check_version() {
        return failed(&wrong);
    }
    let mut output = BufWriter::with_capacity(OUTPUT_CAPACITY, io::stdout().lock());
    let answered = answer_all(io::stdin().lock(), &mut output);
    // The lines before a malformed case are answers all the same.
    let flushed = output.flush();
    match answered.and(flushed.map_err(Failure::Stream)) {
        Ok(()) => ExitCode::SUCCESS,
        Err(failure) => failed(&failure),
    }
}

fn failed(reason: &dyn fmt::Display) -> ExitCode {
    eprintln!("answer: {reason}");
    ExitCode::from(STATUS_FAILED)
}

/// Why the input was not answered to its end.
enum Failure {
    /// The case of this number, from 1, does not keep the format.
    Case(u64, Malformed),
    /// The input or the output failed.
    Stream(io::Error),
}

impl fmt::Display for Failure {
    fn fmt(&self, f: &mut fmt::Formatter<'_>) -> fmt::Result {
        match self {
            Failure::Case(number, malformed) => write!(f, "case {number}: {malformed}"),
            Failure::Stream(error) => write!(f, "{error}"),
        }
    }
}

/// Answers every case. All answers are out before the program waits for more input, so that the other side may wait
/// for them.
fn answer_all(source: impl Read, output: &mut impl Write) -> Result<(), Failure> {
    let mut input = Input::new(source);
    let mut number = 1;
    loop {
        let in_case = |malformed| Failure::Case(number, malformed);
        if let Some(case) = input.next_case().map_err(in_case)? {
            let line = answer(case.op, case.body).map_err(in_case)?;
            writeln!(output, "{line}").map_err(Failure::Stream)?;
            number += 1;
            continue;
        }
        output.flush().map_err(Failure::Stream)?;
        if !input.fill().map_err(Failure::Stream)? {
            return input.check_end().map_err(in_case);
        }
    }
}

/// The line of one case.
fn answer(op: u8, bytes: &[u8]) -> Result<String, Malformed> {
    let mut body = Body::new(bytes);
    let line = match op {
        b'q' => reading::show_request(&body.message()?),
        b'p' => reading::show_reply(&body.message()?),
        b'l' => writing::show_listing(body.size()?, &body.message()?),
        b'f' => writing::show_front(body.size()?, &body.message()?),
        b'w' => writing::show_request(&mut body)?,
        b'u' => writing::show_unknown_request(&mut body)?,
        b'r' => writing::show_success(&mut body)?,
        b'd' => writing::show_readdir(&mut body)?,
        b'x' => writing::show_failure(&mut body)?,
        b'c' => writing::show_getcreds(&mut body)?,
        b'e' => writing::show_unknown_response(&mut body)?,
        b'g' => again::show(&mut body)?,
        b't' => table::show(&mut body)?,
        _ => return Err(Malformed("an op that is not known")),
    };
    body.end()?;
    Ok(line)
}

//! The reply writers.

use crate::methods::{Method, ACCESS, GETCREDS, READDIR, REPLY_OFFSET, UNKNOWN_RESPONSE, UTIMENS};
use crate::refusal::{
    refuse, Refusal, DATA_LENGTH_MISMATCH, LENGTHS_MISMATCH, RESULT_SIGN, UNEXPECTED_TYPE,
};
use crate::reply::data_length_differs;
use crate::store::{
    check_text, check_texts, header, push, push_fields, push_run, push_signed, store,
};
use crate::value::Value;

/// Writes a success of any method but readdir and getcreds, which have
/// writers of their own.
pub fn write_success(
    buffer: &mut [u8],
    id: u32,
    method: &Method,
    result: i32,
    values: &[Value],
) -> Result<usize, Refusal> {
    assert!(method.number != READDIR && method.number != GETCREDS);
    check_success(result)?;
    check_texts(method.reply, values)?;
    if data_length_differs(method, result, values) {
        return refuse(DATA_LENGTH_MISMATCH, 0);
    }
    let mut message = header(id, method.reply_number());
    push_signed(&mut message, 4, result);
    push_fields(&mut message, method.reply, values);
    store(buffer, &message)
}

/// Writes a readdir success. The names lie one behind the other in `run`.
pub fn write_readdir(
    buffer: &mut [u8],
    id: u32,
    result: i32,
    run: &[u8],
    lengths: &[u32],
) -> Result<usize, Refusal> {
    check_success(result)?;
    let names = split(run, lengths)?;
    for name in &names {
        check_text(name)?;
    }
    let mut message = header(id, READDIR + REPLY_OFFSET);
    push_signed(&mut message, 4, result);
    push(&mut message, 4, names.len() as u64);
    for name in &names {
        push_run(&mut message, name);
    }
    store(buffer, &message)
}

/// Writes a failure of any method but getcreds.
pub fn write_failure(buffer: &mut [u8], id: u32, kind: u8, code: i32) -> Result<usize, Refusal> {
    if !(ACCESS + REPLY_OFFSET..=UTIMENS + REPLY_OFFSET).contains(&kind) {
        return refuse(UNEXPECTED_TYPE, 0);
    }
    if code >= 0 {
        return refuse(RESULT_SIGN, 0);
    }
    let mut message = header(id, kind);
    push_signed(&mut message, 4, code);
    store(buffer, &message)
}

pub fn write_getcreds(buffer: &mut [u8], id: u32, creds: &[u8]) -> Result<usize, Refusal> {
    check_text(creds)?;
    let mut message = header(id, GETCREDS + REPLY_OFFSET);
    push_run(&mut message, creds);
    store(buffer, &message)
}

pub fn write_unknown_response(buffer: &mut [u8], id: u32) -> Result<usize, Refusal> {
    store(buffer, &header(id, UNKNOWN_RESPONSE))
}

fn check_success(result: i32) -> Result<(), Refusal> {
    if result < 0 {
        return refuse(RESULT_SIGN, 0);
    }
    Ok(())
}

/// Cuts the run into names. The sum is taken so wide that it cannot wrap.
fn split<'a>(run: &'a [u8], lengths: &[u32]) -> Result<Vec<&'a [u8]>, Refusal> {
    let sum: u128 = lengths.iter().map(|length| u128::from(*length)).sum();
    if sum != run.len() as u128 {
        return refuse(LENGTHS_MISMATCH, 0);
    }
    let mut rest = run;
    let mut names = Vec::new();
    for length in lengths {
        let (name, behind) = rest.split_at(*length as usize);
        names.push(name);
        rest = behind;
    }
    Ok(names)
}

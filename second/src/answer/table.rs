//! Answer lines of the table of outstanding requests.

use crate::answer::body::{Body, Taken};
use crate::answer::read::{refusal_line, reply_text};
use crate::answer::shown::reply_sizes;
use crate::hash::Hash;
use crate::outstanding::{arrive, empty, enter, look, Looked, Record, RECORDS};
use crate::record_bytes::{record_bytes, FREE, HELD, WIDTH};
use crate::refusal::Refusal;
use crate::reply::Reply;

/// The calls, by their byte in a case.
pub const EMPTY: u8 = b'e';
pub const ENTER: u8 = b'n';
pub const ARRIVE: u8 = b'a';
pub const LOOK: u8 = b'k';

/// The most records of a `t` case.
pub const MOST_RECORDS: usize = 200;

/// Op `t`: calls one after another on the same table.
pub fn calls_line(body: &mut Body) -> Taken<String> {
    let count = usize::from(body.u16()?);
    if count > MOST_RECORDS {
        return Err(format!("a table of {count} records"));
    }
    let mut records: Vec<Record> = (0..count).map(|_| record(body)).collect::<Taken<_>>()?;
    let mut line = "table".to_string();
    while !body.is_empty() {
        let told = called(body, &mut records)?;
        line += &format!(" {told} {}", records_text(&records));
    }
    Ok(line)
}

fn called(body: &mut Body, records: &mut [Record]) -> Taken<String> {
    Ok(match body.u8()? {
        EMPTY => emptied(records),
        ENTER => entered(records, body.u32()?, body.u8()?),
        ARRIVE => reply_text(&arrive(records, &body.run()?)),
        LOOK => looked_text(look(records, body.u32()?)),
        call => return Err(format!("no such call: {call}")),
    })
}

/// Op `o`: one call on a table of the right length.
pub fn call_line(body: &mut Body) -> Taken<String> {
    let call = body.u8()?;
    let (id, kind) = (body.u32()?, body.u8()?);
    if call != ENTER && (id, kind) != (0, 0) {
        return Err(format!("call {call} has no id and type"));
    }
    let mut records: Vec<Record> = (0..RECORDS).map(|_| wide_record(body)).collect::<Taken<_>>()?;
    let told = match call {
        EMPTY => emptied(&mut records),
        ENTER => entered(&mut records, id, kind),
        ARRIVE => answered(&mut records, body.shown_message()?),
        _ => return Err(format!("no such call: {call}")),
    };
    Ok(format!("{told} {}", records_text(&records)))
}

fn emptied(records: &mut [Record]) -> String {
    done_text("emptied", empty(records))
}

fn entered(records: &mut [Record], id: u32, kind: u8) -> String {
    done_text("entered", enter(records, id, kind))
}

fn done_text(done: &str, outcome: Result<(), Refusal>) -> String {
    match outcome {
        Ok(()) => done.to_string(),
        Err(refusal) => refusal_line(refusal),
    }
}

fn answered(records: &mut [Record], message: &[u8]) -> String {
    match arrive(records, message) {
        Reply::Refused(refusal) => refusal_line(refusal),
        _ => format!("answered{}", reply_sizes(message)),
    }
}

fn looked_text(outcome: Result<Looked, Refusal>) -> String {
    match outcome {
        Ok(Looked { count, kind: Some(kind) }) => format!("looked {count} {kind}"),
        Ok(Looked { count, kind: None }) => format!("looked {count} none"),
        Err(refusal) => refusal_line(refusal),
    }
}

fn records_text(records: &[Record]) -> String {
    let mut all = Hash::default();
    records.iter().for_each(|record| all.feed(&record_bytes(record)));
    format!("records={}", all.value())
}

/// A record of a `t` case; a free one is its first byte alone.
fn record(body: &mut Body) -> Taken<Record> {
    match body.u8()? {
        FREE => Ok(Record::Free),
        HELD => Ok(Record::Held { id: body.u32()?, kind: body.u8()? }),
        mark => Err(format!("no such record: {mark}")),
    }
}

/// A record of an `o` case; all have the same width.
fn wide_record(body: &mut Body) -> Taken<Record> {
    let record = record(body)?;
    if record == Record::Free && body.take(WIDTH - 1)? != [FREE; WIDTH - 1] {
        return Err("a free record that holds something".to_string());
    }
    Ok(record)
}

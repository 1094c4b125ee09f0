//! Cases of the table of outstanding requests.

use crate::answer::table::{ARRIVE, EMPTY, ENTER, LOOK};
use crate::make::case::{Case, Filled};
use crate::outstanding::Record;
use crate::record_bytes::{record_bytes, FREE};

/// A call on the table of outstanding requests.
#[derive(Clone, Debug)]
pub enum Call {
    Empty,
    Enter { id: u32, kind: u8 },
    Arrive(Filled),
    Look(u32),
}

impl Case {
    fn call(self, call: &Call) -> Case {
        match call {
            Call::Empty => self.bytes(&[EMPTY]),
            Call::Enter { id, kind } => {
                self.bytes(&[ENTER]).bytes(&id.to_be_bytes()).bytes(&[*kind])
            }
            Call::Arrive(message) => self.bytes(&[ARRIVE]).run(message),
            Call::Look(id) => self.bytes(&[LOOK]).bytes(&id.to_be_bytes()),
        }
    }

    /// A free record is one byte.
    fn record(self, record: &Record) -> Case {
        match record {
            Record::Free => self.bytes(&[FREE]),
            _ => self.bytes(&record_bytes(record)),
        }
    }
}

/// Calls one after another on a table.
pub fn calls(records: &[Record], calls: &[Call]) -> Case {
    let case = Case::new(b't').number(2, records.len() as u64);
    let case = records.iter().fold(case, Case::record);
    calls.iter().fold(case, Case::call)
}

/// One call on a table of the right length. A look has no such case.
pub fn one_call(records: &[Record], call: &Call) -> Case {
    let (number, id, kind, message) = match call {
        Call::Empty => (EMPTY, 0, 0, Vec::new()),
        Call::Enter { id, kind } => (ENTER, *id, *kind, Vec::new()),
        Call::Arrive(message) => (ARRIVE, 0, 0, message.bytes()),
        Call::Look(_) => panic!("a look is a call of a sequence"),
    };
    let case = Case::new(b'o').bytes(&[number]).number(4, u64::from(id)).bytes(&[kind]);
    let wide = |case: Case, record| case.bytes(&record_bytes(record));
    records.iter().fold(case, wide).bytes(&message)
}

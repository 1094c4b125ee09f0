//! Cases of the table taken apart, and their answers.

use std::collections::BTreeSet;

use second::answer::answer;
use second::filled::filled;
use second::make::case::Case;
use second::make::{fixed_list, Cases};

/// The checksum of 64 free records.
pub const ALL_FREE: &str = "records=609622597";

/// The checksums of a table with id 7 and type 02 in its first record, with id
/// 8 and type 42 in its second, and with both.
pub const FIRST: &str = "records=844830096";
pub const SECOND: &str = "records=2028570263";
pub const BOTH: &str = "records=2263777762";

/// Id 7 of type 02 and id 8 of type 42, as records.
pub const SEVEN: &str = "01 00000007 02";
pub const EIGHT: &str = "01 00000008 42";

/// A success of getattr without its attributes, and its failure.
pub const SHORT: &str = "00000007 82 00000000";
pub const FAILURE: &str = "00000007 82 fffffffe";

/// A record that holds something has an id and a type.
pub type Held = Option<(u32, u8)>;

#[derive(Debug)]
pub enum Called {
    Empty,
    Enter(u32, u8),
    Arrive(Vec<u8>),
    Look(u32),
}

/// A call and what is answered: the words before the checksum, and the
/// checksum.
pub struct Told {
    pub call: Called,
    pub words: String,
    pub sum: u64,
}

impl Told {
    /// What happened: the first word, or a refusal's number and whether its
    /// place is 0, or whether a look has found the id.
    pub fn outcome(&self) -> String {
        let words: Vec<&str> = self.words.split(' ').collect();
        match words[..] {
            ["refused", number, "at", "0"] => format!("{number} at 0"),
            ["refused", number, "at", _] => format!("{number} at P"),
            ["looked", _, "none"] => "looked none".to_string(),
            _ => words[0].to_string(),
        }
    }
}

pub struct Table {
    pub records: Vec<Held>,
    pub told: Vec<Told>,
}

/// Takes a case of `t` or `o` apart.
pub fn table(case: &Case) -> Table {
    let mut body = Bytes(&case.body);
    let line = answer(case.op, &case.body).unwrap();
    if case.op == b't' {
        let count = body.number(2);
        let records = (0..count).map(|_| body.record()).collect();
        let mut told = Vec::new();
        for (words, sum) in answers(line.strip_prefix("table").unwrap()) {
            told.push(Told { call: body.call(), words, sum });
        }
        assert!(body.0.is_empty(), "an answer for each call");
        return Table { records, told };
    }
    let head = body.take(6);
    let records = (0..64).map(|_| body.wide_record()).collect();
    let call = match head[0] {
        b'a' => Called::Arrive(body.0.to_vec()),
        _ => Bytes(head).call(),
    };
    let [(words, sum)] = &answers(&format!(" {line}"))[..] else { panic!("{line}") };
    Table { records, told: vec![Told { call, words: words.clone(), sum: *sum }] }
}

/// The fixed list of an op, and cases of it by seed, taken apart.
pub fn fixed(op: &str) -> Vec<Table> {
    fixed_list(op).iter().map(table).collect()
}

pub fn fresh(op: &str, count: usize) -> Vec<Table> {
    Cases::fresh(23, op).take(count).map(|case| table(&case)).collect()
}

/// The causes of 20 that a table has.
pub fn causes(records: &[Held]) -> BTreeSet<&'static str> {
    let mut found = BTreeSet::new();
    if records.len() != 64 {
        found.insert("length");
    }
    for (place, held) in records.iter().enumerate() {
        let Some((id, kind)) = held else { continue };
        if records[..place].iter().flatten().any(|(other, _)| other == id) {
            found.insert("twice");
        }
        if *kind >= 0x80 {
            found.insert("type");
        }
    }
    found
}

/// The answers of a line, of which each ends with the checksum.
fn answers(line: &str) -> Vec<(String, u64)> {
    let mut found = Vec::new();
    let mut rest = line;
    while let Some((words, behind)) = rest.split_once(" records=") {
        let end = behind.find(' ').unwrap_or(behind.len());
        let words = words.strip_prefix(' ').unwrap();
        found.push((words.to_string(), behind[..end].parse().unwrap()));
        rest = &behind[end..];
    }
    assert!(rest.is_empty(), "{line}");
    found
}

/// The bytes of a body that are left.
pub struct Bytes<'a>(pub &'a [u8]);

impl<'a> Bytes<'a> {
    pub fn take(&mut self, length: usize) -> &'a [u8] {
        let (taken, left) = self.0.split_at(length);
        self.0 = left;
        taken
    }

    pub fn number(&mut self, width: usize) -> u32 {
        self.take(width).iter().fold(0, |number, byte| number << 8 | u32::from(*byte))
    }

    /// A text, data or message, given as a prefix and a fill.
    pub fn run(&mut self) -> Vec<u8> {
        let whole = self.number(4) as usize;
        let fill = self.number(1) as u8;
        let length = self.number(4) as usize;
        filled(self.take(length), whole, fill)
    }

    fn record(&mut self) -> Held {
        (self.number(1) == 1).then(|| (self.number(4), self.number(1) as u8))
    }

    fn wide_record(&mut self) -> Held {
        Bytes(self.take(6)).record()
    }

    fn call(&mut self) -> Called {
        match self.number(1) as u8 {
            b'e' => Called::Empty,
            b'n' => Called::Enter(self.number(4), self.number(1) as u8),
            b'k' => Called::Look(self.number(4)),
            b'a' => Called::Arrive(self.run()),
            other => panic!("no such call: {other}"),
        }
    }
}

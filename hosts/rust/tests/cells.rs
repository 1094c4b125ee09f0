//! The table of cells in tushalets.h says where in a reading each field of a message stands. Here its rows are compared
//! with document 01's table, and with messages of every type that the library writes and reads.
use std::array;
use std::collections::{BTreeMap, BTreeSet};
use tushalets::numbers::{refusals, shapes, types};
use tushalets::raw;

const HEADER: &str = include_str!("../../c/tushalets.h");

/// Document 01's table in the order of the types: a method, the fields of its request, and those of its reply.
const METHODS: [(&str, &str, &str); 23] = [
    ("access", "path string, mode i8", "result i32"),
    (
        "getattr",
        "path string",
        "result i32, inode u64, nlink u64, mode u32, uid u32, gid u32, rdev u64, size u64, blocks u64, \
         atime timestamp, mtime timestamp, ctime timestamp",
    ),
    ("readlink", "path string", "result i32, resolved string"),
    ("symlink", "target string, linkpath string", "result i32"),
    ("link", "old_path string, new_path string", "result i32"),
    ("rename", "old_path string, new_path string, flags u8", "result i32"),
    ("chmod", "path string, mode u32", "result i32"),
    ("chown", "path string, uid u32, gid u32", "result i32"),
    ("truncate", "path string, size u64, handle u64", "result i32"),
    ("fsync", "path string, is_datasync bool, handle u64", "result i32"),
    ("open", "path string, flags i32", "result i32, handle u64"),
    ("mknod", "path string, mode u32, dev u64", "result i32"),
    ("create", "path string, mode u32", "result i32, handle u64"),
    ("release", "path string, handle u64", "result i32"),
    ("unlink", "path string", "result i32"),
    ("read", "path string, buffer_size u32, offset u64, handle u64", "result i32, data bytes"),
    ("write", "path string, data bytes, offset u64, handle u64", "result i32"),
    ("mkdir", "path string, mode u32", "result i32"),
    ("readdir", "path string", "result i32, items strings"),
    ("rmdir", "path string", "result i32"),
    (
        "statfs",
        "path string",
        "result i32, bsize u64, frsize u64, blocks u64, bfree u64, bavail u64, files u64, ffree u64, namemax u64",
    ),
    ("utimens", "path string, atime timestamp, mtime timestamp, handle u64", "result i32"),
    ("getcreds", "", "creds string"),
];

/// The names and kinds of fields that are written out in this way.
fn names_and_kinds(fields: &str) -> impl Iterator<Item = (&str, &str)> {
    fields.split_terminator(", ").map(|field| field.split_once(' ').expect("a name and a kind"))
}

// ---- the table in the header

struct Field {
    name: String,
    cells: Vec<usize>,
    kind: String,
}

type Row = Vec<Field>;

/// The rows by what they are for: a method's request or reply, a failure, the unknown.
type Table = BTreeMap<String, Row>;

/// What stands before a row; a line that is indented further goes on with it.
const ROW_START: &str = " *   ";

/// The rows, each in a line. They are what follows the list of kinds and a blank line.
fn lines_of_rows(header: &str) -> Vec<String> {
    let (_, comment) = header.split_once("/* Cells of a reading").expect("the comment with the table");
    let (comment, _) = comment.split_once("*/").expect("its end");
    let (_, rows) = comment.split_once("\n *\n").expect("a blank line behind the kinds");
    let mut lines: Vec<String> = Vec::new();
    for line in rows.lines().filter(|line| *line != " *") {
        let line = line.strip_prefix(ROW_START).unwrap_or_else(|| panic!("no row: `{line}`"));
        match lines.last_mut() {
            Some(row) if line.starts_with(' ') => *row += &format!(" {}", line.trim()),
            _ => lines.push(line.to_string()),
        }
    }
    lines
}

fn table(header: &str) -> Table {
    let mut found = Table::new();
    for line in lines_of_rows(header) {
        let (label, rest) = line.split_once("  ").expect("a label and its fields");
        let (fields, whose) = rest.split_once(": ").unwrap_or((rest, ""));
        let labels = match label {
            "each other reply" => whose.split(", ").map(|method| format!("{method} reply")).collect(),
            _ => vec![label.to_string()],
        };
        for label in labels {
            assert!(found.insert(label.clone(), row(fields.trim())).is_none(), "two rows for {label}");
        }
    }
    found
}

fn row(fields: &str) -> Row {
    if fields == "none" {
        return Row::new();
    }
    let words: Vec<&str> = fields.split_whitespace().collect();
    words.chunks(3).map(|words| field(words).unwrap_or_else(|| panic!("no field: {words:?}"))).collect()
}

/// `NAME CELLS (KIND)`.
fn field(words: &[&str]) -> Option<Field> {
    let [name, cells, kind] = words else { return None };
    let kind = kind.strip_prefix('(')?.strip_suffix(')')?;
    let cells = cells.split(',').map(str::parse).collect::<Result<_, _>>().ok()?;
    Some(Field { name: name.to_string(), cells, kind: kind.to_string() })
}

// ---- messages with another value in every field

/// The cells of a reading.
const CELLS: usize = 17;

const ID: u32 = 7;
const ROOM: usize = 256;
const RESULT: i32 = 0x7172_7374;
const CODE: i32 = -2;

/// Texts or data, and what is no text at the same length.
const RUNS: [&[u8]; 2] = [b"/first", b"/second"];
const MALFORMED: [&[u8]; 2] = [&[0x80; 6], &[0x80; 7]];

/// The first run as names, and how the first of them stands in a message.
const LENGTHS: [u32; 2] = [1, 5];
const FIRST_NAME: &[u8] = b"\0\0\0\x01/";

/// No two words have a byte in common, and each byte has its highest bit set, so that each kind shows a word in its own
/// way; but a u32 and an i32 have the same cell.
fn word(place: usize) -> u64 {
    0x8182_8384_8586_8788 + 0x0808_0808_0808_0808 * place as u64
}

/// A message that a row speaks of.
struct Sample {
    label: String,
    fields: &'static str,
    shape: u32,
    type_number: u8,
    result: Option<i32>,
}

fn samples() -> Vec<Sample> {
    let mut samples = Vec::new();
    let mut add = |label, fields, shape, type_number, result| {
        samples.push(Sample { label, fields, shape, type_number, result });
    };
    for (type_number, (method, request, reply)) in (types::ACCESS..).zip(METHODS) {
        let reply_type = type_number + types::REPLY;
        let result = match reply_type {
            types::GETCREDS_REPLY => None,
            types::READ_REPLY => Some(RUNS[0].len() as i32),
            _ => Some(RESULT),
        };
        add(format!("{method} request"), request, shapes::KNOWN, type_number, None);
        add(format!("{method} reply"), reply, shapes::SUCCESS, reply_type, result);
        if reply_type != types::GETCREDS_REPLY {
            add("failure".to_string(), "result i32", shapes::FAILURE, reply_type, Some(CODE));
        }
    }
    for type_number in [0, types::GETCREDS + 1, types::UNKNOWN_RESPONSE] {
        add("unknown".to_string(), "", shapes::UNKNOWN, type_number, None);
    }
    samples
}

impl Sample {
    /// The message with these texts or data, or the number of refusal.
    fn write(&self, runs: [&[u8]; 2]) -> Result<Vec<u8>, u32> {
        let [first, second] = runs;
        let (type_number, result) = (self.type_number, self.result.unwrap_or(0));
        let mut out = vec![0; ROOM];
        let written = match self.shape {
            shapes::KNOWN => raw::write_request(ID, type_number, &array::from_fn(word), first, second, &mut out),
            shapes::SUCCESS => {
                raw::write_reply(ID, type_number, result, &array::from_fn(word), first, &LENGTHS, &mut out)
            }
            shapes::FAILURE => raw::write_failure(ID, type_number, result, &mut out),
            _ if type_number == types::UNKNOWN_RESPONSE => raw::write_unknown_response(ID, &mut out),
            _ => raw::write_unknown_request(ID, type_number, &mut out),
        };
        out.truncate(written.len);
        if written.number == 0 {
            Ok(out)
        } else {
            Err(written.number)
        }
    }

    fn read(&self, message: &[u8]) -> raw::Reading {
        if self.type_number < types::REPLY {
            raw::read_request(message)
        } else {
            raw::read_reply(message)
        }
    }

    /// Whether the row has the names and the kinds of document 01.
    fn is_documented(&self, row: &Row) -> bool {
        let shown = row.iter().map(|field| (field.name.as_str(), field.kind.as_str()));
        shown.eq(names_and_kinds(self.fields))
    }

    /// Whether the library shows the message in the cells and by the kinds of the row.
    fn is_shown(&self, row: &Row) -> bool {
        let message = self.write(RUNS).expect("a message of each type is written");
        let reading = self.read(&message);
        assert_eq!((reading.shape, reading.type_number), (self.shape, self.type_number.into()), "{}", self.label);
        self.claimed(row, &message) == Some(reading.fields) && self.are_texts_checked(row)
    }

    /// All cells of a reading of the message, if the row is right. None where a field has fewer or more cells than its
    /// kind, or the message has no such part.
    fn claimed(&self, row: &Row, message: &[u8]) -> Option<[u64; CELLS]> {
        let mut words = self.result.into_iter().map(|result| result as u64).chain((0..).map(word));
        let mut runs = RUNS.into_iter();
        let mut claimed = [0; CELLS];
        for field in row {
            let shown = cells_by_kind(&field.kind, &mut words, &mut runs, message)?;
            if shown.len() != field.cells.len() {
                return None;
            }
            for (cell, shown) in field.cells.iter().zip(shown) {
                *claimed.get_mut(*cell)? = shown;
            }
        }
        Some(claimed)
    }

    /// Whether what is no text is refused just where the row has a string or strings.
    fn are_texts_checked(&self, row: &Row) -> bool {
        let kinds = row.iter().map(|field| field.kind.as_str());
        let mut runs = kinds.filter(|kind| matches!(*kind, "string" | "bytes" | "strings")).enumerate();
        runs.all(|(place, kind)| {
            let mut given = RUNS;
            given[place] = MALFORMED[place];
            (self.write(given) == Err(refusals::MALFORMED_TEXT.into())) == (kind != "bytes")
        })
    }
}

/// The cells of the next words or of the next run, by the list of kinds in the header.
fn cells_by_kind(
    kind: &str,
    words: &mut impl Iterator<Item = u64>,
    runs: &mut impl Iterator<Item = &'static [u8]>,
    message: &[u8],
) -> Option<Vec<u64>> {
    let place_of = |run: &[u8]| message.windows(run.len()).position(|part| part == run).map(|place| place as u64);
    Some(match kind {
        "u8" => vec![words.next()? as u8 as u64],
        "i8" => vec![words.next()? as i8 as u32 as u64],
        "u32" | "i32" => vec![words.next()? as u32 as u64],
        "u64" => vec![words.next()?],
        "bool" => vec![(words.next()? != 0) as u64],
        "timestamp" => vec![words.next()?, words.next()? as u32 as u64],
        "string" | "bytes" => {
            let run = runs.next()?;
            vec![place_of(run)?, run.len() as u64]
        }
        "strings" => vec![place_of(FIRST_NAME)?, LENGTHS.len() as u64],
        _ => panic!("no kind: `{kind}`"),
    })
}

// ---- tests

/// The rows that a check does not pass, that are missing, or that are too many.
fn differences(header: &str, check: impl Fn(&Sample, &Row) -> bool) -> BTreeSet<String> {
    let (table, samples) = (table(header), samples());
    let passes = |sample: &&Sample| table.get(&sample.label).is_some_and(|row| check(sample, row));
    let wrong = samples.iter().filter(|sample| !passes(sample)).map(|sample| sample.label.clone());
    let is_known = |label: &&String| samples.iter().any(|sample| sample.label == **label);
    wrong.chain(table.keys().filter(|label| !is_known(label)).cloned()).collect()
}

#[test]
fn the_table_is_document_01s() {
    assert_eq!(differences(HEADER, Sample::is_documented), BTreeSet::new());
}

#[test]
fn the_table_is_what_the_library_shows() {
    assert_eq!(differences(HEADER, Sample::is_shown), BTreeSet::new());
}

/// The row that is to differ, and the words that are altered.
type Alteration = (&'static str, &'static str, &'static str);

fn all_are_seen(alterations: &[Alteration], check: impl Fn(&Sample, &Row) -> bool) {
    for (label, from, to) in alterations {
        assert_eq!(HEADER.matches(from).count(), 1, "`{from}` does not stand there once");
        let altered = HEADER.replace(from, to);
        assert_eq!(differences(&altered, &check), BTreeSet::from([label.to_string()]), "`{from}` to `{to}`");
    }
}

#[test]
fn swapped_cells_are_seen() {
    let alterations = [
        ("chown request", "uid 2 (u32)  gid 3 (u32)", "uid 3 (u32)  gid 2 (u32)"),
        (
            "link request",
            "old_path 0,1 (string)  new_path 2,3 (string)\n",
            "old_path 2,3 (string)  new_path 0,1 (string)\n",
        ),
        ("write request", "path 0,1 (string)  data 2,3", "path 2,3 (string)  data 0,1"),
        ("utimens request", "atime 2,3", "atime 3,2"),
        ("utimens request", "handle 6", "handle 7"),
        ("getattr reply", "atime 9,10 (timestamp)  mtime 11,12", "atime 11,12 (timestamp)  mtime 9,10"),
        ("readdir reply", "items 1,2", "items 2,1"),
        ("failure", "failure            result 0", "failure            result 1"),
    ];
    all_are_seen(&alterations, Sample::is_shown);
}

/// A u32 and an i32 are told apart by document 01 alone.
#[test]
fn other_kinds_are_seen() {
    let alterations = [
        ("access request", "mode 2 (i8)", "mode 2 (u8)"),
        ("access request", "mode 2 (i8)", "mode 2 (i32)"),
        ("rename request", "flags 4 (u8)", "flags 4 (i8)"),
        ("fsync request", "is_datasync 2 (bool)", "is_datasync 2 (u8)"),
        ("read request", "buffer_size 2 (u32)", "buffer_size 2 (u64)"),
        ("mknod request", "dev 3 (u64)", "dev 3 (u32)"),
        ("write request", "data 2,3 (bytes)", "data 2,3 (string)"),
        ("utimens request", "atime 2,3 (timestamp)", "atime 2,3 (string)"),
        ("utimens request", "atime 2,3 (timestamp)", "atime 2 (u64)  nsec 3 (u64)"),
        ("readlink reply", "resolved 1,2 (string)", "resolved 1,2 (bytes)"),
        ("readdir reply", "items 1,2 (strings)", "items 1,2 (string)"),
        ("statfs reply", "namemax 8 (u64)", "namemax 8 (u32)"),
        ("unknown", "unknown            none", "unknown            result 0 (i32)"),
    ];
    all_are_seen(&alterations, Sample::is_documented);
    all_are_seen(&alterations, Sample::is_shown);
    all_are_seen(&[("open request", "flags 2 (i32)", "flags 2 (u32)")], Sample::is_documented);
}

#[test]
fn other_names_are_seen() {
    let alterations = [
        ("chown request", "uid 2 (u32)  gid 3 (u32)", "gid 2 (u32)  uid 3 (u32)"),
        ("statfs reply", "bfree 4", "free 4"),
        ("getcreds reply", "creds 0,1", "credentials 0,1"),
    ];
    all_are_seen(&alterations, Sample::is_documented);
}

#[test]
fn missing_and_additional_rows_are_seen() {
    let alterations = [
        ("rmdir request", " *   rmdir request      path 0,1 (string)\n", ""),
        ("open reply", " *   open reply         result 0 (i32)  handle 1 (u64)\n", ""),
        ("mkdir reply", "write, mkdir, rmdir", "write, rmdir"),
        ("getattr reply", "  ctime 13,14 (timestamp)", ""),
        ("getcreds request", " *   getcreds request   none\n", ""),
        ("move request", " *   getcreds request   none\n", " *   getcreds request   none\n *   move request   none\n"),
        ("move reply", "rmdir, utimens", "rmdir, utimens, move"),
    ];
    all_are_seen(&alterations, Sample::is_documented);
    all_are_seen(&alterations, Sample::is_shown);
}

//! docs/PROTOCOL.md tells what the definitions under crates/*/specs say. Here its tables of methods, members, widths
//! and entries of text are compared with the definitions themselves, so that a row that is changed there cannot leave
//! the page behind.
use std::collections::BTreeMap;

const PAGE: &str = include_str!("../../../docs/PROTOCOL.md");

/// The definitions that the page tells of, one text behind the other.
const DEFINITIONS: &str = concat!(
    include_str!("../../../crates/method/specs/Methods.antt"),
    include_str!("../../../crates/method_names/specs/Names.antt"),
    include_str!("../../../crates/layout/specs/Kinds.antt"),
    include_str!("../../../crates/layout/specs/Table.antt"),
    include_str!("../../../crates/text/specs/Utf8.antt"),
);

/// By a row's name, what it says; all in the same words, whether the page or the definitions said it.
type Rows = BTreeMap<String, String>;

fn add(rows: &mut Rows, name: String, what: String) {
    assert!(rows.insert(name.clone(), what).is_none(), "two rows for {name}");
}

// ---- the definitions

type Words = Vec<String>;

/// The clauses `left = right` of the definitions, in words, each by the words of its left side.
struct Clauses(BTreeMap<Words, Words>);

/// Names, numbers and texts in quotes, and each bracket by itself.
fn words(text: &str) -> Words {
    text.replace('(', " ( ").replace(')', " ) ").split_whitespace().map(str::to_string).collect()
}

impl Clauses {
    /// A clause begins at a line's start, and the lines that are indented go on with it.
    fn of(definitions: &str) -> Self {
        let mut clauses = BTreeMap::new();
        let mut text = String::new();
        let lines = definitions.lines().map(|line| line.split("--").next().unwrap_or_default());
        for line in lines.chain(["end"]) {
            if !line.starts_with(' ') {
                if let Some((left, right)) = text.split_once(" = ") {
                    assert!(clauses.insert(words(left), words(right)).is_none(), "two clauses `{left} = ..`");
                }
                text.clear();
            }
            text.push_str(line);
            text.push(' ');
        }
        Clauses(clauses)
    }

    fn right(&self, left: &str) -> &[String] {
        self.0.get(&words(left)).unwrap_or_else(|| panic!("the definitions have no clause `{left} = ..`"))
    }

    fn number(&self, left: &str) -> usize {
        let word = &self.right(left)[0];
        let number = word.strip_prefix("0x").map_or(word.parse(), |hex| usize::from_str_radix(hex, 16));
        number.unwrap_or_else(|_| panic!("`{left}` is no number"))
    }

    /// The parameters and the right side of the clause that defines a name.
    fn named(&self, name: &str) -> (&[String], &[String]) {
        let mut named = self.0.iter().filter(|(left, _)| left[0] == name);
        let (left, right) = named.next().unwrap_or_else(|| panic!("the definitions have no `{name}`"));
        assert!(named.next().is_none(), "`{name}` has several clauses");
        (&left[1..], right)
    }

    /// The fields of a list, each as its name and its kind. Lists are joined in order: signs and brackets add nothing.
    fn fields(&self, list: &[String]) -> Vec<(String, String)> {
        let mut fields = Vec::new();
        let mut rest = list.iter();
        while let Some(word) = rest.next() {
            if matches!(word.as_str(), "∷" | "++" | "[]" | "(" | ")") {
                continue;
            }
            if word.starts_with('"') {
                assert_eq!(rest.next().map(String::as_str), Some("is"), "behind {word}");
                let kind = rest.find(|word| *word != "num").expect("a kind");
                fields.push((word.trim_matches('"').to_string(), kind.clone()));
            } else {
                let (parameters, right) = self.named(word);
                let given: BTreeMap<_, _> = parameters.iter().zip(rest.by_ref()).collect();
                let right = right.iter().map(|word| given.get(word).map_or(word, |given| *given).clone());
                fields.extend(self.fields(&right.collect::<Words>()));
            }
        }
        fields
    }

    fn shown_fields(&self, list: &[String]) -> String {
        self.fields(list).iter().map(|(name, kind)| format!(" {name} {kind}")).collect()
    }
}

/// The methods by name: the place among them, the types, the fields of the request, how the reply begins, its fields.
fn methods_defined(clauses: &Clauses) -> Rows {
    let mut rows = Rows::new();
    let methods = clauses.right("methods").iter().filter(|word| *word != "∷" && *word != "[]");
    for (place, method) in methods.enumerate() {
        let number = clauses.number(&format!("request_number {method}"));
        let name = clauses.right(&format!("name_of {method}"))[0].trim_matches('"');
        let row = clauses.right(&format!("row {method}"));
        let at = row.iter().position(|word| word == "gets").expect("a request gets a reply");
        let (request, reply) = (clauses.shown_fields(&row[..at]), clauses.shown_fields(&row[at + 2..]));
        let reply_number = number + clauses.number("reply_offset");
        let types = format!("{number:#04x} {reply_number:#04x}");
        add(&mut rows, name.to_string(), format!("{place}: {types} request{request}, {}{reply}", row[at + 1]));
    }
    rows
}

const STRUCTURES: [&str; 2] = ["attributes", "statistics"];

/// The members by their structure and their place in it.
fn members_defined(clauses: &Clauses) -> Rows {
    let mut rows = Rows::new();
    for structure in STRUCTURES {
        let mut place = 0;
        for (name, kind) in clauses.fields(&words(structure)) {
            let width = clauses.number(&format!("width {kind}"));
            add(&mut rows, format!("{structure} {name}"), format!("{place} {kind}"));
            place += width;
        }
        add(&mut rows, structure.to_string(), format!("{place} bytes"));
    }
    rows
}

fn widths_defined(clauses: &Clauses) -> Rows {
    let widths = clauses.0.keys().filter(|left| left[0] == "width");
    widths.map(|left| (left[1].clone(), clauses.number(&left.join(" ")).to_string())).collect()
}

/// The entries of text in their order: ranges of the first byte, and a range for each byte behind it.
fn entries_defined(clauses: &Clauses) -> Rows {
    let entries = clauses.right("entries").split(|word| word == "entry").skip(1);
    let lists = |entry: &[String]| {
        let first_end = entry.iter().position(|word| word == ")").expect("the ranges of the first byte");
        let (first, rest) = entry.split_at(first_end);
        format!("{} then {}", ranges(clauses, first), ranges(clauses, rest))
    };
    (1..).zip(entries).map(|(number, entry)| (format!("entry {number}"), lists(entry))).collect()
}

/// The ranges of a list: `LOW to HIGH`, `byte LOW`, or a name.
fn ranges(clauses: &Clauses, list: &[String]) -> String {
    let mut shown = Vec::new();
    let hex = |word: &String| word.strip_prefix("0x").expect("a byte in hex").to_string();
    let mut rest = list.iter().filter(|word| !matches!(word.as_str(), "∷" | "[]" | "(" | ")"));
    while let Some(word) = rest.next() {
        shown.push(match word.as_str() {
            "byte" => hex(rest.next().expect("a byte")),
            low if low.starts_with("0x") => {
                assert_eq!(rest.next().map(String::as_str), Some("to"), "behind {low}");
                format!("{}..{}", hex(word), hex(rest.next().expect("a byte")))
            }
            name => ranges(clauses, clauses.right(name)),
        });
    }
    shown.join(" ")
}

// ---- the page

/// The rows of the table whose first line begins so, each as its cells.
fn table<'a>(page: &'a str, head: &str) -> Vec<Vec<&'a str>> {
    let mut lines = page.lines().skip_while(|line| !line.starts_with(head));
    assert!(lines.next().is_some(), "the page has no table `{head}`");
    let rows = lines.take_while(|line| line.starts_with('|')).skip(1);
    rows.map(|line| line.trim_matches('|').split('|').map(str::trim).collect()).collect()
}

/// What stands in code, one piece after another; and all else.
fn code(cell: &str) -> (Vec<&str>, String) {
    let in_code = cell.split('`').skip(1).step_by(2).collect();
    (in_code, cell.split('`').step_by(2).collect())
}

/// The fields of a cell, each as `NAME KIND` or as a structure's name, and what is said behind them.
fn fields_told(clauses: &Clauses, cell: &str) -> (String, String) {
    let (fields, said) = code(cell);
    let mut list = Words::new();
    for field in &fields {
        list.extend(match field.split_once(' ') {
            Some((name, "timestamp")) => words(&format!("timestamp \"{name}\" \"{name}.nsec\"")),
            Some((name, kind)) => words(&format!("\"{name}\" is {kind}")),
            None if STRUCTURES.contains(field) => words(field),
            None => panic!("in `{cell}`: `{field}` has no kind"),
        });
    }
    let between = ", ".repeat(fields.len().saturating_sub(1));
    let behind = said.strip_prefix(&between).unwrap_or_else(|| panic!("in `{cell}`: no `, ` between fields"));
    assert_eq!(fields.is_empty(), behind == "none", "in `{cell}`: fields, or none");
    (clauses.shown_fields(&list), behind.to_string())
}

fn methods_told(clauses: &Clauses, page: &str) -> Rows {
    let mut rows = Rows::new();
    for (place, row) in table(page, "| Request | Reply | Method |").into_iter().enumerate() {
        let [request_type, reply_type, name, request, reply] = row[..] else { panic!("no row of five cells: {row:?}") };
        let types = format!("{} {}", code(request_type).0.concat(), code(reply_type).0.concat());
        let (request, behind) = fields_told(clauses, request);
        assert!(matches!(behind.as_str(), "" | "none"), "in the row of {name}: `{behind}`");
        let (reply, behind) = fields_told(clauses, reply);
        let begins = match behind.as_str() {
            "" | "none" => "result",
            "; the result is its length" => "counted",
            "; there is no result" => "bare",
            other => panic!("in the row of {name}: `{other}`"),
        };
        add(&mut rows, name.to_string(), format!("{place}: {types} request{request}, {begins}{reply}"));
    }
    rows
}

fn members_told(clauses: &Clauses, page: &str) -> Rows {
    let mut rows = Rows::new();
    for structure in STRUCTURES {
        for row in table(page, &format!("| Place | Member of {structure} |")) {
            let mut place: usize = row[0].parse().unwrap_or_else(|_| panic!("no place: {row:?}"));
            for field in fields_told(clauses, row[1]).0.split_whitespace().collect::<Vec<_>>().chunks(2) {
                add(&mut rows, format!("{structure} {}", field[0]), format!("{place} {}", field[1]));
                place += clauses.number(&format!("width {}", field[1]));
            }
        }
        let made_of = table(page, "| Kind | Made of |");
        let row = made_of.iter().find(|row| code(row[0]).0 == [structure]);
        let told = row.and_then(|row| row[1].rsplit(": ").next()).unwrap_or_default();
        add(&mut rows, structure.to_string(), told.to_string());
    }
    rows
}

fn widths_told(page: &str) -> Rows {
    let rows = table(page, "| Kind | Bytes |");
    rows.into_iter().map(|row| (code(row[0]).0.concat(), row[1].to_string())).collect()
}

fn entries_told(page: &str) -> Rows {
    let lists = |row: &[&str]| format!("{} then {}", code(row[0]).0.join(" "), code(row[1]).0.join(" "));
    let rows = table(page, "| First byte | Bytes behind it |");
    (1..).zip(rows).map(|(number, row)| (format!("entry {number}"), lists(&row))).collect()
}

// ---- tests

fn all_told(definitions: &str, page: &str) -> Rows {
    let clauses = Clauses::of(definitions);
    let told = [methods_told(&clauses, page), members_told(&clauses, page), widths_told(page), entries_told(page)];
    told.into_iter().flatten().collect()
}

fn all_defined(definitions: &str) -> Rows {
    let clauses = Clauses::of(definitions);
    let defined = [methods_defined, members_defined, widths_defined, entries_defined];
    defined.into_iter().flat_map(|rows| rows(&clauses)).collect()
}

/// The rows that the page and the definitions have differently, or that only one of them has, and what each says.
fn differences(definitions: &str, page: &str) -> BTreeMap<String, String> {
    let (defined, told) = (all_defined(definitions), all_told(definitions, page));
    let names = defined.keys().chain(told.keys()).filter(|name| defined.get(*name) != told.get(*name));
    let said = |rows: &Rows, name| rows.get(name).map_or("nothing".to_string(), String::clone);
    let both = |name| format!("{name}\n  page       {}\n  definition {}", said(&told, name), said(&defined, name));
    names.map(|name| (name.clone(), both(name))).collect()
}

#[test]
fn the_page_tells_what_is_defined() {
    let differing: Vec<String> = differences(DEFINITIONS, PAGE).into_values().collect();
    assert!(differing.is_empty(), "docs/PROTOCOL.md differs from crates/*/specs:\n{}", differing.join("\n"));
}

/// Rows that no parser saw would be missing on both sides.
#[test]
fn every_row_is_seen() {
    let clauses = Clauses::of(DEFINITIONS);
    assert_eq!(methods_defined(&clauses).len(), 23);
    assert_eq!(members_defined(&clauses).len(), 14 + 8 + 2);
    assert_eq!(widths_defined(&clauses).len(), 6);
    assert_eq!(entries_defined(&clauses).len(), 8);
}

/// The rows that are to differ, and the words that are altered.
type Alteration = (&'static [&'static str], &'static str, &'static str);

fn altered(text: &str, from: &str, to: &str) -> String {
    assert_eq!(text.matches(from).count(), 1, "`{from}` does not stand there once");
    text.replace(from, to)
}

#[test]
fn a_page_left_behind_is_seen() {
    let alterations: [Alteration; 14] = [
        (&["access"], "`mode i8`", "`mode u8`"),
        (&["chown"], "`uid u32`, `gid u32` | none", "`gid u32`, `uid u32` | none"),
        (&["open"], "`flags i32` | `handle u64`", "`flags i32` | none"),
        (&["read"], "; the result is its length", ""),
        (&["write"], "`0x11` | `0x91`", "`0x17` | `0x91`"),
        (&["getattr"], "`path string` | `attributes`", "`path string` | `statistics`"),
        (&["utimens"], "`mtime timestamp`, `handle", "`handle"),
        (&["getcreds"], "; there is no result", ""),
        (&["rmdir", "remove"], "| rmdir |", "| remove |"),
        (&["attributes rdev"], "| 28 | `rdev u64`", "| 28 | `rdev u32`"),
        (&["attributes ctime", "attributes ctime.nsec"], "| 76 |", "| 77 |"),
        (&["statistics"], "below: 64 bytes", "below: 72 bytes"),
        (&["i8"], "| `i8` | 1 |", "| `i8` | 4 |"),
        (&["entry 5"], "`80..9f`", "`80..bf`"),
    ];
    for (names, from, to) in alterations {
        let seen = differences(DEFINITIONS, &altered(PAGE, from, to));
        assert!(seen.keys().map(String::as_str).eq(sorted(names)), "`{from}` to `{to}`: {:?}", seen.keys());
    }
}

/// The name alone is no field: the definitions have a `path` too, and it would be read as theirs.
#[test]
#[should_panic(expected = "`path` has no kind")]
fn a_field_without_its_kind_is_seen() {
    differences(DEFINITIONS, &altered(PAGE, "`path string`, `mode i8`", "`path`, `mode i8`"));
}

#[test]
#[should_panic(expected = "in the row of write: `; and more`")]
fn words_behind_the_fields_of_a_request_are_seen() {
    let page = altered(PAGE, "`offset u64`, `handle u64` | none", "`offset u64`, `handle u64`; and more | none");
    differences(DEFINITIONS, &page);
}

#[test]
fn a_changed_definition_is_seen() {
    let alterations: [Alteration; 7] = [
        (&["write"], "row Write = path ∷ \"data\" is bytes", "row Write = \"data\" is bytes ∷ path"),
        (&["mknod"], "\"dev\" is num u64", "\"dev\" is num u32"),
        (&["link", "rename"], "\"new_path\"", "\"to_path\""),
        (&["chmod"], "request_number Chmod = 0x07", "request_number Chmod = 0x27"),
        (&["statistics ffree", "statistics free"], "\"ffree\"", "\"free\""),
        (&["entry 7"], "0xf1 to 0xf3", "0xf1 to 0xf4"),
        (&["statfs"], "gets result statistics", "gets counted statistics"),
    ];
    for (names, from, to) in alterations {
        let seen = differences(&altered(DEFINITIONS, from, to), PAGE);
        assert!(seen.keys().map(String::as_str).eq(sorted(names)), "`{from}` to `{to}`: {:?}", seen.keys());
    }
}

fn sorted(names: &[&'static str]) -> Vec<&'static str> {
    let mut names = names.to_vec();
    names.sort_unstable();
    names
}

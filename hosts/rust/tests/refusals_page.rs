//! docs/REFUSALS.md names each number of refusal in the definitions, in Rattle, in C and in Rust. Here each name is looked
//! up where it is defined, and has to have the row's number; and no number of refusal is without a row.
const PAGE: &str = include_str!("../../../docs/REFUSALS.md");
const DEFINITIONS: &str = include_str!("../../../crates/layout/specs/Refusals.antt");
const WIRE: &str = include_str!("../../../crates/wire/src/lib.rt");
const HEADER: &str = include_str!("../../c/tushalets.h");
const NUMBERS: &str = include_str!("../src/numbers.rs");

struct Row<'a> {
    number: u8,
    definition: &'a str,
    in_rattle: &'a str,
    in_c: &'a str,
    in_rust: &'a str,
}

/// The rows of "Names in code" that have a number of their own.
fn rows(page: &str) -> Vec<Row<'_>> {
    let (_, section) = page.split_once("## Names in code").expect("the section");
    let (section, _) = section.split_once("\n## ").expect("a section behind it");
    let cells =
        section.lines().map(|line| line.split('|').map(|cell| cell.trim().trim_matches('`')).collect::<Vec<_>>());
    cells
        .filter_map(|cells| match cells[..] {
            [_, number, definition, in_rattle, in_c, in_rust, _] => {
                Some(Row { number: number.parse().ok()?, definition, in_rattle, in_c, in_rust })
            }
            _ => None,
        })
        .collect()
}

/// The number that stands behind these words in the text.
fn number_behind(text: &str, words: &str) -> Option<u8> {
    let (_, rest) = text.split_once(words)?;
    rest.split(|c: char| !c.is_ascii_digit()).next()?.parse().ok()
}

fn faults(page: &str) -> Vec<u8> {
    let is_wrong = |row: &Row| {
        number_behind(DEFINITIONS, &format!("\n{} = ", row.definition)) != Some(row.number)
            || number_behind(WIRE, &format!(" {}: u8 = ", row.in_rattle.trim_start_matches("Refusal::")))
                != Some(row.number)
            || number_behind(HEADER, &format!(" {} = ", row.in_c)) != Some(row.number)
            || number_behind(refusals(), &format!(" {}: u8 = ", row.in_rust)) != Some(row.number)
    };
    rows(page).iter().filter(|row| is_wrong(row)).map(|row| row.number).collect()
}

fn refusals() -> &'static str {
    let (_, refusals) = NUMBERS.split_once("pub mod refusals {").expect("the module");
    refusals.split_once("\n}").expect("its end").0
}

#[test]
fn every_name_has_the_number_of_its_row() {
    assert_eq!(faults(PAGE), []);
}

#[test]
fn every_number_has_a_row() {
    let listed: Vec<u8> = rows(PAGE).iter().map(|row| row.number).collect();
    let in_rust: Vec<u8> =
        refusals().split(": u8 = ").skip(1).filter_map(|rest| rest.split(';').next()?.parse().ok()).collect();
    assert_eq!(listed, in_rust);
}

#[test]
fn a_wrong_row_is_seen() {
    for (from, to, number) in [
        ("| 2 | `oversize`", "| 2 | `truncated`", 2),
        ("| `Refusal::TRUNCATED` |", "| `Refusal::MALFORMED_TEXT` |", 4),
        ("| `TUSHALETS_RESULT_SIGN`", "| `TUSHALETS_OVERSIZE`", 8),
        ("| `TABLE_FULL` |", "| `ID_OUTSTANDING` |", 11),
        ("| 20 | `unsound_table`", "| 19 | `unsound_table`", 19),
    ] {
        assert_eq!(PAGE.matches(from).count(), 1, "{from}");
        assert_eq!(faults(&PAGE.replace(from, to)), [number], "{from}");
    }
}

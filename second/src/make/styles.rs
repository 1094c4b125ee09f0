//! Boundary values for all fields of a message.

use crate::make::case::Filled;
use crate::make::put::Put;
use crate::methods::{Field, Kind};

#[derive(Clone, Copy, Debug, PartialEq, Eq)]
pub enum Style {
    Zeros,
    Ones,
    /// Numbers with the sign bit alone.
    Least,
    /// Numbers with all bits but the sign bit.
    Greatest,
    /// No two bytes of numbers alike and no two texts alike, so that a
    /// swapped or shifted field shows.
    Counting,
}

pub const STYLES: [Style; 5] =
    [Style::Zeros, Style::Ones, Style::Least, Style::Greatest, Style::Counting];

pub fn id(style: Style) -> u32 {
    match style {
        Style::Zeros => 0,
        Style::Ones => 0xffff_ffff,
        Style::Least => 0x8000_0000,
        Style::Greatest => 0x7fff_ffff,
        Style::Counting => 0x0102_0304,
    }
}

pub fn puts(fields: &[Field], style: Style) -> Vec<Put> {
    let mut next_byte = 0x11;
    let mut texts = 0;
    let mut puts = Vec::new();
    for field in fields {
        puts.push(match (field.kind, field.kind.width()) {
            (_, Some(width)) => Put::Number(number(style, width, &mut next_byte)),
            (Kind::Names, _) => Put::Names(names(style)),
            _ => {
                texts += 1;
                Put::Run(Filled::exact(&text(style, texts)))
            }
        });
    }
    puts
}

fn number(style: Style, width: usize, next_byte: &mut u8) -> u64 {
    let sign = 1 << (8 * width - 1);
    match style {
        Style::Zeros => 0,
        Style::Ones => u64::MAX,
        Style::Least => sign,
        Style::Greatest => sign - 1,
        Style::Counting => (0..width).fold(0, |number, _| {
            let byte = u64::from(*next_byte);
            *next_byte += 1;
            number << 8 | byte
        }),
    }
}

fn text(style: Style, nth: u8) -> Vec<u8> {
    match style {
        Style::Zeros => Vec::new(),
        Style::Ones => b"/".to_vec(),
        Style::Least => vec![0],
        Style::Greatest => vec![0xf4, 0x8f, 0xbf, 0xbf],
        Style::Counting => (0..=nth).map(|index| b'a' + 5 * nth + index).collect(),
    }
}

fn names(style: Style) -> Vec<Vec<u8>> {
    match style {
        Style::Zeros => Vec::new(),
        Style::Ones => vec![Vec::new()],
        Style::Least => vec![vec![0], vec![0, 0]],
        Style::Greatest => vec![vec![0xf4, 0x8f, 0xbf, 0xbf]; 3],
        Style::Counting => {
            vec![b"a".to_vec(), b"bc".to_vec(), Vec::new(), "\u{e9}".into(), b"def".to_vec()]
        }
    }
}

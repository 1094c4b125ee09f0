//! Fields of a message that was read, and how they are shown.

use crate::checksum::{checksum, Checksum};

/// A field's name and value.
pub struct Field<'a> {
    pub name: &'static str,
    pub value: Value<'a>,
}

/// A number of any width, a bool as 0 or 1, or a text or data as a part of the message.
pub enum Value<'a> {
    Number(i128),
    Part(&'a [u8]),
}

impl<'a> From<&'a str> for Value<'a> {
    fn from(text: &'a str) -> Self {
        Value::Part(text.as_bytes())
    }
}

impl<'a> From<&'a [u8]> for Value<'a> {
    fn from(data: &'a [u8]) -> Self {
        Value::Part(data)
    }
}

macro_rules! numbers {
    ($($number:ty),*) => {
        $(impl From<$number> for Value<'_> {
            fn from(number: $number) -> Self {
                Value::Number(number.into())
            }
        })*
    };
}

numbers!(bool, u8, u32, u64, i8, i32);

/// Where a part of the message begins in it, also when it is empty.
pub fn start_of(message: &[u8], part: &[u8]) -> usize {
    (part.as_ptr() as usize).wrapping_sub(message.as_ptr() as usize)
}

/// ` name=value` of every field.
pub fn show(message: &[u8], fields: &[Field<'_>]) -> String {
    fields.iter().map(|field| show_field(message, field)).collect()
}

fn show_field(message: &[u8], field: &Field<'_>) -> String {
    let name = field.name;
    match field.value {
        Value::Number(number) => format!(" {name}={number}"),
        Value::Part(part) => format!(" {name}={}:{}:{}", start_of(message, part), part.len(), checksum(part)),
    }
}

/// ` parts=HASH` of the parts of these names.
pub fn show_parts(names: &[&str], fields: &[Field<'_>]) -> String {
    let mut sum = Checksum::default();
    for name in names {
        sum.add_number(part_checksum(name, fields));
    }
    format!(" parts={}", sum.value())
}

/// A message without a part of this name has 0.
fn part_checksum(name: &str, fields: &[Field<'_>]) -> u64 {
    match fields.iter().find(|field| field.name == name) {
        Some(Field { value: Value::Part(part), .. }) => checksum(part),
        _ => 0,
    }
}

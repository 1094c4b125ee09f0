//! Values of fields, as readers show them and writers take them.

/// A piece of a message and the place where it begins there.
#[derive(Clone, Copy, Debug, PartialEq, Eq)]
pub struct Part<'a> {
    pub start: usize,
    pub bytes: &'a [u8],
}

#[derive(Clone, Copy, Debug, PartialEq, Eq)]
pub enum Value<'a> {
    /// Also the count of the names of a readdir reply.
    Unsigned(u64),
    Signed(i32),
    Bool(bool),
    /// A text or data. Writers do not look at the place.
    Part(Part<'a>),
}

impl<'a> Value<'a> {
    /// A text or data to be written.
    pub fn run(bytes: &'a [u8]) -> Value<'a> {
        Value::Part(Part { start: 0, bytes })
    }
}

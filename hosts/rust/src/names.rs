use crate::raw::NamePosition;
use core::fmt;
use core::iter::FusedIterator;

/// The names of a readdir reply, one after another. They were checked when the reply was read, and are parts of it.
///
/// Only [`read_reply`](crate::read_reply) and [`Outstanding::arrive`](crate::Outstanding::arrive) make one. Two are
/// equal where they give the same names from here on.
#[derive(Clone)]
pub struct Names<'a> {
    position: NamePosition<'a>,
}

impl<'a> Names<'a> {
    #[inline]
    pub(crate) fn new(position: NamePosition<'a>) -> Self {
        Names { position }
    }
}

impl<'a> Iterator for Names<'a> {
    type Item = &'a str;

    #[inline]
    fn next(&mut self) -> Option<&'a str> {
        self.position.step()
    }

    #[inline]
    fn size_hint(&self) -> (usize, Option<usize>) {
        let left = self.position.left();
        (left, Some(left))
    }
}

impl ExactSizeIterator for Names<'_> {}

impl FusedIterator for Names<'_> {}

impl PartialEq for Names<'_> {
    fn eq(&self, other: &Self) -> bool {
        self.clone().eq(other.clone())
    }
}

impl Eq for Names<'_> {}

impl fmt::Debug for Names<'_> {
    fn fmt(&self, f: &mut fmt::Formatter<'_>) -> fmt::Result {
        f.debug_list().entries(self.clone()).finish()
    }
}

/// Names to be written: their bytes one behind the other, and the length of each. The lengths sum to the bytes, and
/// each name is well-formed by itself, or the writer refuses.
#[derive(Clone, Copy, Debug, PartialEq, Eq, Hash)]
pub struct NameRun<'a> {
    /// The bytes of all names.
    pub names: &'a [u8],
    /// The length of each name in bytes.
    pub lengths: &'a [u32],
}

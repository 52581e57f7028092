//! A part of a file or of a source.

use core::num::TryFromIntError;
use core::ops::Range;

/// A part of a file or of a source: where it starts and how many bytes it has.
///
/// Not a `Range<usize>`: start and length are what a record holds, and every pair of them is a record
/// that [`write`](crate::write()) takes (and refuses, if it has to).
#[derive(Clone, Copy, Debug, Default, PartialEq, Eq, Hash)]
pub struct Span {
    /// The offset of the first byte.
    pub start: u32,
    /// How many bytes there are.
    pub length: u32,
}

impl Span {
    /// The range that indexes the bytes: `&file[span.range()]`. A number that `usize` cannot hold, on
    /// a target where it has fewer than 64 bits, becomes `usize::MAX`, which no slice reaches.
    pub fn range(self) -> Range<usize> {
        let [start, length] =
            [self.start, self.length].map(|n| usize::try_from(n).unwrap_or(usize::MAX));
        start..start.saturating_add(length)
    }

    /// These bytes; `None` if the span does not lie in `bytes`.
    pub fn of(self, bytes: &[u8]) -> Option<&[u8]> {
        bytes.get(self.range())
    }
}

/// The span of a range, which fails where an offset needs more than 32 bits. A range that ends before
/// it starts is empty.
///
/// ```
/// let span = bpg::Span::try_from(3..10)?;
/// assert_eq!((span.start, span.length), (3, 7));
/// # Ok::<(), std::num::TryFromIntError>(())
/// ```
impl TryFrom<Range<usize>> for Span {
    type Error = TryFromIntError;

    fn try_from(range: Range<usize>) -> Result<Span, TryFromIntError> {
        Ok(Span {
            start: range.start.try_into()?,
            length: range.len().try_into()?,
        })
    }
}

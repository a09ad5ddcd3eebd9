//! Where something stands in a source.

use std::ops::Range;

/// A place in a source, counted from 0 and in bytes.
///
/// A line starts at the beginning and after each LF. An editor shows `line + 1`.
#[derive(Clone, Copy, Debug, Default, PartialEq, Eq, Hash, PartialOrd, Ord)]
pub struct Place {
    /// How many bytes of the source stand before it.
    pub offset: usize,
    /// How many lines stand before its own.
    pub line: usize,
    /// How many bytes of its line stand before it.
    pub column: usize,
}

impl Place {
    /// The place of an offset. Behind the end it is that of the end.
    ///
    /// ```
    /// let place = pdl_front::Place::of(b"ab\ncd", 4);
    /// assert_eq!((place.offset, place.line, place.column), (4, 1, 1));
    /// ```
    pub fn of(source: &[u8], offset: usize) -> Place {
        let before = &source[..offset.min(source.len())];
        let start = before.iter().rposition(|byte| *byte == b'\n').map_or(0, |end| end + 1);
        Place {
            offset: before.len(),
            line: before.iter().filter(|byte| **byte == b'\n').count(),
            column: before.len() - start,
        }
    }
}

/// From where to where something stands in a source. The end is the place behind its last byte.
#[derive(Clone, Copy, Debug, Default, PartialEq, Eq, Hash, PartialOrd, Ord)]
pub struct Span {
    /// Where it starts.
    pub start: Place,
    /// Where it ends.
    pub end: Place,
}

impl Span {
    /// The offsets alone, to take the part out of the source.
    pub fn range(&self) -> Range<usize> {
        self.start.offset..self.end.offset
    }

    /// The span of six words: offset, line and column of the start, then of the end.
    pub(crate) fn of_words(words: &[u64]) -> Span {
        let place = |at: usize| Place {
            offset: words[at] as usize,
            line: words[at + 1] as usize,
            column: words[at + 2] as usize,
        };
        Span { start: place(0), end: place(3) }
    }
}

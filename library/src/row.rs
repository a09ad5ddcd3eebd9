//! What the five kinds of rows share: their words, their places, and how one goes through them.

use std::fmt;
use std::iter::FusedIterator;
use std::marker::PhantomData;
use std::ops::Range;

use crate::kinds::Table;
use crate::place::Span;
use crate::reading::Reading;
use crate::words::{END_COLUMN, START_OFFSET};

/// One row, with the reading that it is a row of.
#[derive(Clone, Copy)]
pub struct Row<'r, 's> {
    pub(crate) reading: &'r Reading<'s>,
    pub(crate) index: usize,
    pub(crate) words: &'r [u64],
}

impl<'r, 's> Row<'r, 's> {
    pub(crate) fn span(self) -> Span {
        Span::of_words(&self.words[START_OFFSET..=END_COLUMN])
    }

    /// A part of the source. The port is proved to write parts of the source only, so that nothing is ever cut off.
    fn part(self, range: Range<usize>) -> &'s str {
        self.reading.source().get(range).unwrap_or("")
    }

    pub(crate) fn text(self) -> &'s str {
        self.part(self.span().range())
    }

    /// The name whose offset is this word and whose length is the next. The endianness line stands before all names, so that no
    /// name that is there has the offset 0; one without letters may be there.
    pub(crate) fn name(self, word: usize) -> Option<&'s str> {
        let (offset, length) = (self.at(word), self.at(word + 1));
        (offset > 0).then(|| self.part(offset..offset + length))
    }

    /// The number behind this word, which is its flag.
    pub(crate) fn number(self, word: usize) -> Option<u64> {
        (self.words[word] > 0).then(|| self.words[word + 1])
    }

    /// The rows from the one that this word tells on, as many as the next word tells.
    pub(crate) fn rows<V: View<'r, 's>>(self, word: usize) -> Rows<'r, 's, V> {
        Rows::new(self.reading, self.at(word)..self.at(word) + self.at(word + 1))
    }

    pub(crate) fn at(self, word: usize) -> usize {
        self.words[word] as usize
    }
}

/// A row of one of the tables.
pub trait View<'r, 's>: Sized {
    const TABLE: Table;

    fn of_row(row: Row<'r, 's>) -> Self;
}

/// Rows of a table one after the other, as an iterator that knows how many are left.
///
/// ```
/// let reading = pdl_front::read(b"little_endian_packets\npacket A {x: 3, y: 5}")?;
/// let fields = reading.fields();
/// assert_eq!(fields.len(), 2);
/// assert_eq!(fields.rev().map(|field| field.text()).collect::<Vec<_>>(), ["y: 5", "x: 3"]);
/// # Ok::<(), pdl_front::Refusal>(())
/// ```
pub struct Rows<'r, 's, V> {
    reading: &'r Reading<'s>,
    left: Range<usize>,
    view: PhantomData<fn() -> V>,
}

impl<'r, 's, V: View<'r, 's>> Rows<'r, 's, V> {
    /// These rows, as far as the table has them.
    pub(crate) fn new(reading: &'r Reading<'s>, rows: Range<usize>) -> Rows<'r, 's, V> {
        let end = rows.end.min(reading.count(V::TABLE));
        Rows { reading, left: rows.start.min(end)..end, view: PhantomData }
    }

    fn view(&self, index: usize) -> Option<V> {
        self.reading.row(V::TABLE, index).map(V::of_row)
    }
}

impl<'r, 's, V: View<'r, 's>> Iterator for Rows<'r, 's, V> {
    type Item = V;

    fn next(&mut self) -> Option<V> {
        let index = self.left.next()?;
        self.view(index)
    }

    fn nth(&mut self, n: usize) -> Option<V> {
        let index = self.left.nth(n)?;
        self.view(index)
    }

    fn size_hint(&self) -> (usize, Option<usize>) {
        self.left.size_hint()
    }
}

impl<'r, 's, V: View<'r, 's>> DoubleEndedIterator for Rows<'r, 's, V> {
    fn next_back(&mut self) -> Option<V> {
        let index = self.left.next_back()?;
        self.view(index)
    }
}

impl<'r, 's, V: View<'r, 's>> ExactSizeIterator for Rows<'r, 's, V> {}

impl<'r, 's, V: View<'r, 's>> FusedIterator for Rows<'r, 's, V> {}

impl<V> Clone for Rows<'_, '_, V> {
    fn clone(&self) -> Self {
        Rows { reading: self.reading, left: self.left.clone(), view: PhantomData }
    }
}

impl<V> fmt::Debug for Rows<'_, '_, V> {
    fn fmt(&self, f: &mut fmt::Formatter<'_>) -> fmt::Result {
        write!(f, "Rows({:?})", self.left)
    }
}

/// Makes the view of one table, with what all of them have.
macro_rules! view {
    ($(#[$doc:meta])* $name:ident, $table:ident, $kind:ident) => {
        $(#[$doc])*
        #[derive(Clone, Copy)]
        pub struct $name<'r, 's>(pub(crate) crate::row::Row<'r, 's>);

        impl<'r, 's> crate::row::View<'r, 's> for $name<'r, 's> {
            const TABLE: crate::Table = crate::Table::$table;

            fn of_row(row: crate::row::Row<'r, 's>) -> Self {
                $name(row)
            }
        }

        impl<'r, 's> $name<'r, 's> {
            /// What it is.
            pub fn kind(&self) -> crate::$kind {
                crate::$kind::from_number(self.0.words[crate::words::ROW_KIND]).expect("the port is proved to write kinds that there are")
            }

            /// Which row of its table it is, from 0.
            pub fn index(&self) -> usize {
                self.0.index
            }

            /// Where it stands in the source.
            pub fn span(&self) -> crate::Span {
                self.0.span()
            }

            /// The part of the source where it stands, with the blanks that the grammar counts to it.
            pub fn text(&self) -> &'s str {
                self.0.text()
            }

            /// The words of its row, as the port wrote them; [`words`](crate::words) names them.
            pub fn words(&self) -> &'r [u64] {
                self.0.words
            }
        }

        impl std::fmt::Debug for $name<'_, '_> {
            fn fmt(&self, f: &mut std::fmt::Formatter<'_>) -> std::fmt::Result {
                let (index, kind, text) = (self.index(), self.kind(), self.text());
                f.debug_struct(stringify!($name)).field("index", &index).field("kind", &kind).field("text", &text).finish()
            }
        }
    };
}
pub(crate) use view;

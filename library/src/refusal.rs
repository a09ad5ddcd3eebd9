//! Refusals: a number, a place and a reason.

use std::error::Error;
use std::fmt;

use crate::kinds::{kinds, Table};
use crate::place::Place;

/// The longest source that is read, in bytes.
pub const MAX_SOURCE: usize = 1_048_576;

/// Why a call was refused, as the port says it.
///
/// What the place is hangs on the number: an offset in the source ([`RefusalKind::TooLong`] to
/// [`RefusalKind::NotConverted`]), the number of a table ([`RefusalKind::TooFewRows`]), the index of a declaration
/// ([`RefusalKind::NoSuchDeclaration`]) or else the row of the field at which a layout was refused. The converter and the calls of
/// an [`Aligner`](crate::Aligner) by itself have the place 0.
#[derive(Clone, Copy, Debug, PartialEq, Eq, Hash)]
#[non_exhaustive]
pub struct Refusal {
    /// Which refusal it is; see [`RefusalKind`].
    pub number: u64,
    /// Where; what it counts hangs on the number.
    pub place: usize,
    /// Of 4: see [`Unconverted`]. Of 5: how many rows the table needs. Otherwise 0.
    pub reason: u64,
}

kinds! {
    /// The refusals by name.
    #[non_exhaustive]
    RefusalKind {
        /// The source has more than [`MAX_SOURCE`] bytes.
        TooLong = 1,
        /// The source is not UTF-8; the place is the length of the longest beginning that is.
        NotUtf8 = 2,
        /// The grammar does not match. The place is where the endianness line is missing, or where neither a declaration nor the
        /// end follows the last whole declaration.
        NoMatch = 3,
        /// An integer does not convert; the place is its first byte, the reason is an [`Unconverted`].
        NotConverted = 4,
        /// A lent table is too short; the place is its number, the reason how many rows it needs.
        TooFewRows = 5,
        /// A name lies outside its source.
        NameOutside = 6,
        /// Bytes start while bits are staged that fill no whole byte.
        BytesWhileStaged = 10,
        /// A width of bytes is no multiple of 8.
        NotWholeBytes = 11,
        /// More than 64 bits would stand in one chunk.
        TooWide = 12,
        /// A lent table of the aligner is full.
        TableFull = 13,
        /// A field's width is not in the syntax, for another declaration has it.
        WidthNotInSyntax = 14,
        /// There is no such declaration, or it is no packet, struct or group.
        NoSuchDeclaration = 15,
        /// The fields end while bits are staged that fill no whole byte; the place is the first of these fields.
        EndWhileStaged = 16,
        /// A row contradicts itself. No row of a reading does.
        DamagedRow = 17,
        /// The state of an aligner contradicts itself. No state of an [`Aligner`](crate::Aligner) does.
        ContradictoryState = 18,
    }
}

kinds! {
    /// Why an integer does not convert: the reason of [`RefusalKind::NotConverted`].
    #[non_exhaustive]
    Unconverted {
        /// Nothing is left to read. No integer of a source is empty.
        Empty = 1,
        /// A byte is no digit of the base. Base 16 is written `0x`.
        BadDigit = 2,
        /// The number does not fit 64 bits.
        TooLarge = 3,
    }
}

impl Refusal {
    pub(crate) fn new(number: u64, place: u64, reason: u64) -> Refusal {
        Refusal { number, place: place as usize, reason }
    }

    /// A refusal without a place, or nothing for the number 0.
    pub(crate) fn of_number(number: u64) -> Result<(), Refusal> {
        match number {
            0 => Ok(()),
            _ => Err(Refusal::new(number, 0, 0)),
        }
    }

    /// The refusal by name, if this package knows its number.
    pub fn kind(&self) -> Option<RefusalKind> {
        RefusalKind::from_number(self.number)
    }

    /// Where it is in the source that was refused: of the refusals whose place is an offset.
    ///
    /// ```
    /// let source = b"big_endian_packets\npacket A {}\npacket B { x 8 }";
    /// let refusal = pdl_front::read(source).unwrap_err();
    /// let place = refusal.location(source).unwrap();
    /// assert_eq!((place.line, place.column), (2, 0));
    /// ```
    pub fn location(&self, source: &[u8]) -> Option<Place> {
        use RefusalKind::*;
        match self.kind()? {
            TooLong | NotUtf8 | NoMatch | NotConverted => Some(Place::of(source, self.place)),
            _ => None,
        }
    }

    /// The table that is too short: of [`RefusalKind::TooFewRows`] alone.
    pub fn table(&self) -> Option<Table> {
        match self.kind()? {
            RefusalKind::TooFewRows => Table::from_number(self.place as u64),
            _ => None,
        }
    }

    /// Why an integer does not convert: of [`RefusalKind::NotConverted`] alone.
    pub fn unconverted(&self) -> Option<Unconverted> {
        match self.kind()? {
            RefusalKind::NotConverted => Unconverted::from_number(self.reason),
            _ => None,
        }
    }
}

impl Error for Refusal {}

impl fmt::Display for Refusal {
    fn fmt(&self, f: &mut fmt::Formatter<'_>) -> fmt::Result {
        write!(f, "refused ({}, place {}): ", self.number, self.place)?;
        match (self.kind(), self.table(), self.unconverted()) {
            (_, Some(table), _) => {
                let rows = if self.reason == 1 { "row" } else { "rows" };
                write!(f, "the table of {} needs {} {rows}", name(table), self.reason)
            }
            (_, _, Some(why)) => f.write_str(integer(why)),
            (Some(kind), ..) => f.write_str(meaning(kind)),
            (None, ..) => {
                write!(f, "for a reason that this package does not know ({})", self.reason)
            }
        }
    }
}

fn name(table: Table) -> &'static str {
    match table {
        Table::Declarations => "declarations",
        Table::Fields => "fields",
        Table::Tags => "tags",
        Table::Constraints => "constraints",
        Table::Comments => "comments",
    }
}

fn integer(why: Unconverted) -> &'static str {
    match why {
        Unconverted::Empty => "the integer has no digit",
        Unconverted::BadDigit => {
            "the integer has a digit that its base does not have; base 16 is written 0x"
        }
        Unconverted::TooLarge => "the integer does not fit 64 bits",
    }
}

fn meaning(kind: RefusalKind) -> &'static str {
    match kind {
        RefusalKind::TooLong => "the source has more than 1048576 bytes",
        RefusalKind::NotUtf8 => "this byte of the source is not UTF-8",
        RefusalKind::NoMatch => {
            "the endianness line, a declaration or the end of the source is missing here"
        }
        RefusalKind::NotConverted => "the integer does not convert",
        RefusalKind::TooFewRows => "a table has too few rows",
        RefusalKind::NameOutside => "the name lies outside its source",
        RefusalKind::BytesWhileStaged => {
            "bytes cannot start while the bits before them fill no whole byte"
        }
        RefusalKind::NotWholeBytes => "the width of bytes is no multiple of 8",
        RefusalKind::TooWide => "more than 64 bits would stand in one chunk",
        RefusalKind::TableFull => "a table of the aligner is full",
        RefusalKind::WidthNotInSyntax => {
            "the field's width is not in the syntax, for another declaration has it"
        }
        RefusalKind::NoSuchDeclaration => "there is no packet, struct or group in this row",
        RefusalKind::EndWhileStaged => "the bits from this field to the end fill no whole byte",
        RefusalKind::DamagedRow => "a row contradicts itself",
        RefusalKind::ContradictoryState => "the state of the aligner contradicts itself",
    }
}

#[cfg(test)]
mod tests {
    use super::*;

    #[test]
    fn every_refusal_says_something_of_its_own() {
        let numbers = RefusalKind::ALL.iter().map(|kind| Refusal::new(kind.number(), 0, 0));
        let reasons = Unconverted::ALL.iter().map(|why| Refusal::new(4, 0, why.number()));
        let tables = Table::ALL.iter().map(|table| Refusal::new(5, table.number(), 2));
        let unknown = [Refusal::new(99, 0, 0)];
        let said: Vec<_> =
            numbers.chain(reasons).chain(tables).chain(unknown).map(|it| it.to_string()).collect();
        let words = |text: &String| {
            text.split_once(": ").expect("a colon stands before the words").1.to_owned()
        };
        let apart: std::collections::BTreeSet<_> = said.iter().map(words).collect();
        assert_eq!((said.len(), apart.len()), (24, 24));
    }
}

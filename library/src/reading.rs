//! Reading a source into tables, and what was read.

use std::borrow::Cow;
use std::fmt;

use crate::comment::Comment;
use crate::constraint::Constraint;
use crate::declaration::Declaration;
use crate::entries;
use crate::field::Field;
use crate::kinds::{Endianness, Table};
use crate::layout::{lay_out, Layout};
use crate::place::Span;
use crate::refusal::{Refusal, RefusalKind};
use crate::row::{Row, Rows, View};
use crate::tag::Tag;
use crate::words::{
    COMMENT_WORDS, CONSTRAINT_WORDS, DECLARATION_WORDS, ENDIANNESS_WORDS, END_COLUMN, FIELD_WORDS,
    ROW_KIND, START_OFFSET, TAG_WORDS,
};

/// How many tables a reading has.
const TABLES: usize = 5;

/// How many bytes of a source are thought to make one row of each table, before it is read.
const USUAL_BYTES: [usize; TABLES] = [128, 32, 64, 128, 64];

impl Table {
    /// How many words a row of it has.
    pub const fn row_words(self) -> usize {
        match self {
            Table::Declarations => DECLARATION_WORDS,
            Table::Fields => FIELD_WORDS,
            Table::Tags => TAG_WORDS,
            Table::Constraints => CONSTRAINT_WORDS,
            Table::Comments => COMMENT_WORDS,
        }
    }

    /// Where it stands among the five.
    const fn position(self) -> usize {
        self.number() as usize - 1
    }
}

/// Five tables that are lent to [`read_into`]. Each holds as many rows as fit whole; see [`Table::row_words`].
#[derive(Debug, Default)]
pub struct Tables<'t> {
    /// For the rows of declarations.
    pub declarations: &'t mut [u64],
    /// For the rows of fields.
    pub fields: &'t mut [u64],
    /// For the rows of tags.
    pub tags: &'t mut [u64],
    /// For the rows of constraints.
    pub constraints: &'t mut [u64],
    /// For the rows of comments.
    pub comments: &'t mut [u64],
}

/// How many rows each table of a reading has.
#[derive(Clone, Copy, Debug, Default, PartialEq, Eq, Hash)]
pub struct Counts {
    /// Rows of declarations.
    pub declarations: usize,
    /// Rows of fields.
    pub fields: usize,
    /// Rows of tags.
    pub tags: usize,
    /// Rows of constraints.
    pub constraints: usize,
    /// Rows of comments.
    pub comments: usize,
}

/// What was read of a source: the rows of five tables, and the endianness.
///
/// It borrows the source. It owns its tables after [`read`], and borrows those that were lent after [`read_into`]. Names and texts
/// are parts of the source and live as long as that.
#[derive(Clone, PartialEq, Eq)]
pub struct Reading<'s> {
    source: &'s str,
    endianness: [u64; ENDIANNESS_WORDS],
    /// The words of the rows of each table, and no more.
    tables: [Cow<'s, [u64]>; TABLES],
}

/// Reads a source.
///
/// The tables grow as the port asks for it. Each repeat makes one table large enough, so that a source is read six times at most,
/// and mostly once.
///
/// # Errors
///
/// Refusals [`TooLong`](RefusalKind::TooLong), [`NotUtf8`](RefusalKind::NotUtf8), [`NoMatch`](RefusalKind::NoMatch) and
/// [`NotConverted`](RefusalKind::NotConverted), in this order, each over the whole source.
///
/// ```
/// let reading = pdl_front::read(b"little_endian_packets\npacket A {x: 3 , y: 5}")?;
/// assert_eq!(reading.endianness(), pdl_front::Endianness::Little);
/// let fields: Vec<_> = reading.fields().map(|field| (field.name_a(), field.number_a())).collect();
/// assert_eq!(fields, [(Some("x"), Some(3)), (Some("y"), Some(5))]);
/// # Ok::<(), pdl_front::Refusal>(())
/// ```
pub fn read(source: &[u8]) -> Result<Reading<'_>, Refusal> {
    let length = source.len().min(crate::MAX_SOURCE);
    read_from(source, USUAL_BYTES.map(|bytes| length / bytes + 4))
}

/// Reads a source, at first into tables of so many rows.
fn read_from(source: &[u8], rows: [usize; TABLES]) -> Result<Reading<'_>, Refusal> {
    let mut tables: [Vec<u64>; TABLES] = Default::default();
    for table in Table::ALL {
        tables[table.position()] = vec![0; rows[table.position()] * table.row_words()];
    }
    let mut outcome = called(source, slices(&mut tables));
    for _ in Table::ALL {
        match outcome {
            Err(refusal) if grown(&mut tables, &refusal) => {
                outcome = called(source, slices(&mut tables))
            }
            _ => break,
        }
    }
    let (counts, endianness) = outcome?;
    for table in Table::ALL {
        tables[table.position()].truncate(counts[table.position()] * table.row_words());
    }
    Reading::new(source, endianness, tables.map(Cow::Owned))
}

fn slices(tables: &mut [Vec<u64>; TABLES]) -> [&mut [u64]; TABLES] {
    let [declarations, fields, tags, constraints, comments] = tables;
    [declarations, fields, tags, constraints, comments]
}

/// Makes room for the rows that a refusal asks for. It says whether it did.
fn grown(tables: &mut [Vec<u64>; TABLES], refusal: &Refusal) -> bool {
    match refusal.table() {
        Some(table) => {
            tables[table.position()] = vec![0; refusal.reason as usize * table.row_words()];
            true
        }
        None => false,
    }
}

/// Reads a source into lent tables.
///
/// A refused call leaves them as they were. An accepted one writes rows from the start of each table on, and leaves the words
/// behind them as they were.
///
/// # Errors
///
/// Those of [`read`], and behind them [`TooFewRows`](RefusalKind::TooFewRows) for the first table that is too short. Its reason is
/// how many rows that table needs.
///
/// ```
/// use pdl_front::{read_into, words, Table, Tables};
///
/// let source = b"little_endian_packets\npacket A {x: 3 , y: 5}";
/// let mut declarations = [7; 2 * words::DECLARATION_WORDS];
/// let mut fields = [7; words::FIELD_WORDS];
/// let mut tables = Tables { declarations: &mut declarations, fields: &mut fields, ..Tables::default() };
/// let refusal = read_into(source, &mut tables).unwrap_err();
/// assert_eq!((refusal.table(), refusal.reason), (Some(Table::Fields), 2));
/// assert_eq!(declarations[0], 7);
///
/// let mut fields = [7; 2 * words::FIELD_WORDS];
/// let mut tables = Tables { declarations: &mut declarations, fields: &mut fields, ..Tables::default() };
/// let reading = read_into(source, &mut tables)?;
/// assert_eq!(reading.declaration(0).unwrap().id(), "A");
/// assert_eq!(reading.counts().fields, 2);
/// # Ok::<(), pdl_front::Refusal>(())
/// ```
pub fn read_into<'s>(source: &'s [u8], tables: &'s mut Tables<'_>) -> Result<Reading<'s>, Refusal> {
    let Tables { declarations, fields, tags, constraints, comments } = tables;
    let (counts, endianness) = called(
        source,
        [&mut **declarations, &mut **fields, &mut **tags, &mut **constraints, &mut **comments],
    )?;
    let lent: [&'s [u64]; TABLES] = [declarations, fields, tags, constraints, comments];
    let rows = |table: Table| {
        Cow::Borrowed(&lent[table.position()][..counts[table.position()] * table.row_words()])
    };
    let rows = [
        rows(Table::Declarations),
        rows(Table::Fields),
        rows(Table::Tags),
        rows(Table::Constraints),
        rows(Table::Comments),
    ];
    Reading::new(source, endianness, rows)
}

/// One call of the port: the counts of rows and the endianness, or the refusal.
fn called(
    source: &[u8],
    tables: [&mut [u64]; TABLES],
) -> Result<([usize; TABLES], [u64; ENDIANNESS_WORDS]), Refusal> {
    let read = entries::read(source, tables);
    match read.number {
        0 => Ok((read.counts.map(|count| count as usize), read.endianness)),
        _ => Err(Refusal::new(read.number, read.refusal[0], read.refusal[1])),
    }
}

impl<'s> Reading<'s> {
    /// The reading of an accepted source. That source is UTF-8, as is proved; looking once more is cheap, and needs no trust.
    fn new(
        source: &'s [u8],
        endianness: [u64; ENDIANNESS_WORDS],
        tables: [Cow<'s, [u64]>; TABLES],
    ) -> Result<Reading<'s>, Refusal> {
        let refused = |length: usize| Refusal::new(RefusalKind::NotUtf8.number(), length as u64, 0);
        let source = std::str::from_utf8(source).map_err(|error| refused(error.valid_up_to()))?;
        Ok(Reading { source, endianness, tables })
    }

    /// The source that was read.
    pub fn source(&self) -> &'s str {
        self.source
    }

    /// In which order bytes stand.
    pub fn endianness(&self) -> Endianness {
        Endianness::from_number(self.endianness[ROW_KIND])
            .expect("the port is proved to write 1 or 2")
    }

    /// Where the endianness line stands, with the blank behind its word.
    pub fn endianness_span(&self) -> Span {
        Span::of_words(&self.endianness[START_OFFSET..=END_COLUMN])
    }

    /// How many rows each table has.
    pub fn counts(&self) -> Counts {
        Counts {
            declarations: self.count(Table::Declarations),
            fields: self.count(Table::Fields),
            tags: self.count(Table::Tags),
            constraints: self.count(Table::Constraints),
            comments: self.count(Table::Comments),
        }
    }

    /// The words of all rows of a table, one row behind the other.
    pub fn words(&self, table: Table) -> &[u64] {
        &self.tables[table.position()]
    }

    /// The declarations, in the order of the source.
    pub fn declarations(&self) -> Rows<'_, 's, Declaration<'_, 's>> {
        self.rows()
    }

    /// The fields of all declarations, in the order of the source.
    pub fn fields(&self) -> Rows<'_, 's, Field<'_, 's>> {
        self.rows()
    }

    /// The tags of all enums, in the order of the source.
    pub fn tags(&self) -> Rows<'_, 's, Tag<'_, 's>> {
        self.rows()
    }

    /// The constraints of all headers, group fields and conditions, in the order of the source.
    pub fn constraints(&self) -> Rows<'_, 's, Constraint<'_, 's>> {
        self.rows()
    }

    /// The comments, in the order of the source.
    pub fn comments(&self) -> Rows<'_, 's, Comment<'_, 's>> {
        self.rows()
    }

    /// The declaration of a row.
    pub fn declaration(&self, index: usize) -> Option<Declaration<'_, 's>> {
        self.row(Table::Declarations, index).map(Declaration)
    }

    /// The field of a row, which is also its symbol in a layout.
    pub fn field(&self, index: usize) -> Option<Field<'_, 's>> {
        self.row(Table::Fields, index).map(Field)
    }

    /// The tag of a row.
    pub fn tag(&self, index: usize) -> Option<Tag<'_, 's>> {
        self.row(Table::Tags, index).map(Tag)
    }

    /// The constraint of a row.
    pub fn constraint(&self, index: usize) -> Option<Constraint<'_, 's>> {
        self.row(Table::Constraints, index).map(Constraint)
    }

    /// The comment of a row.
    pub fn comment(&self, index: usize) -> Option<Comment<'_, 's>> {
        self.row(Table::Comments, index).map(Comment)
    }

    /// Where each bit of a packet, a struct or a group stands: its own fields, chunk by chunk. A symbol of the layout is the row of
    /// a field.
    ///
    /// # Errors
    ///
    /// [`NoSuchDeclaration`](RefusalKind::NoSuchDeclaration) where the row is no packet, struct or group.
    /// [`BytesWhileStaged`](RefusalKind::BytesWhileStaged), [`TooWide`](RefusalKind::TooWide),
    /// [`WidthNotInSyntax`](RefusalKind::WidthNotInSyntax) and [`EndWhileStaged`](RefusalKind::EndWhileStaged), whose place is the
    /// row of a field.
    ///
    /// ```
    /// let reading = pdl_front::read(b"little_endian_packets\npacket A {x: 3 , y: 5}")?;
    /// let layout = reading.layout(0)?;
    /// let chunk = layout.chunks().next().unwrap();
    /// assert_eq!(chunk.width(), Some(8));
    /// assert_eq!(chunk.placed().map(|placed| placed.offset).collect::<Vec<_>>(), [0, 3]);
    /// # Ok::<(), pdl_front::Refusal>(())
    /// ```
    pub fn layout(&self, index: usize) -> Result<Layout, Refusal> {
        let fields = self.declaration(index).map_or(0, |declaration| declaration.fields().len());
        lay_out(self.words(Table::Declarations), self.words(Table::Fields), index, fields)
    }

    fn rows<'r, V: View<'r, 's>>(&'r self) -> Rows<'r, 's, V> {
        Rows::new(self, 0..self.count(V::TABLE))
    }

    pub(crate) fn count(&self, table: Table) -> usize {
        self.words(table).len() / table.row_words()
    }

    pub(crate) fn row(&self, table: Table, index: usize) -> Option<Row<'_, 's>> {
        let words = self.words(table).chunks_exact(table.row_words()).nth(index)?;
        Some(Row { reading: self, index, words })
    }
}

impl fmt::Debug for Reading<'_> {
    fn fmt(&self, f: &mut fmt::Formatter<'_>) -> fmt::Result {
        f.debug_struct("Reading")
            .field("endianness", &self.endianness())
            .field("counts", &self.counts())
            .finish_non_exhaustive()
    }
}

#[cfg(test)]
mod tests {
    use super::*;

    const EVERY_TABLE: &[u8] =
        b"little_endian_packets\nenum E : 8 { A = 0 } packet P : Q (x = A) { y : 8 } // end";

    #[test]
    fn tables_grow_from_nothing_one_after_the_other() {
        let grown = read_from(EVERY_TABLE, [0; TABLES]).unwrap();
        assert_eq!(grown, read(EVERY_TABLE).unwrap());
        assert_eq!(
            grown.counts(),
            Counts { declarations: 2, fields: 1, tags: 1, constraints: 1, comments: 1 }
        );
    }

    #[test]
    fn a_refusal_without_a_table_is_handed_on() {
        assert_eq!(read_from(b"", [0; TABLES]).unwrap_err(), Refusal::new(3, 0, 0));
    }

    #[test]
    fn nothing_is_kept_of_a_longer_table() {
        assert_eq!(
            read_from(EVERY_TABLE, [9; TABLES]).unwrap(),
            read_from(EVERY_TABLE, [2; TABLES]).unwrap()
        );
    }
}

//! What a source's reading is: rows of words in five tables, or a refusal.

use std::slice::ChunksExact;

/// The tables, in the order of their numbers less 1.
pub const DECLARATIONS: usize = 0;
pub const FIELDS: usize = 1;
pub const TAGS: usize = 2;
pub const CONSTRAINTS: usize = 3;
pub const COMMENTS: usize = 4;

/// Words in a row of each table.
pub const ROW_WORDS: [usize; 5] = [17, 20, 12, 12, 7];

/// Words of the endianness and its place.
pub const ENDIANNESS_WORDS: usize = 7;

/// Words of every row: its kind, and the offsets of its start and its end. The line and the column
/// stand behind each offset.
pub const KIND: usize = 0;
pub const START: usize = 1;
pub const END: usize = 4;

/// The offsets of names; the length stands behind each. Fields have names a, b, c, and all other
/// rows but comments an id.
pub const ID: usize = 7;
pub const PARENT_OR_FUNCTION: usize = 9;
pub const NAME_A: usize = 7;
pub const NAME_B: usize = 9;
pub const NAME_C: usize = 11;
pub const TAG_NAME: usize = 9;

/// The first rows of lists; the count stands behind each. A declaration has members, which are
/// tags or fields, and the constraints of its header.
pub const MEMBERS: usize = 13;
pub const HEADER_CONSTRAINTS: usize = 15;
pub const GROUP_CONSTRAINTS: usize = 17;

/// A field's condition: its constraint row plus 1.
pub const CONDITION: usize = 19;

/// The kind of a declaration whose members are tags.
pub const ENUM: u64 = 1;

/// A refusal as 01 numbers it; all words are 0 when a call is accepted.
#[derive(Clone, Copy, Debug, Default, PartialEq, Eq)]
pub struct Refusal {
    pub number: u64,
    pub place: u64,
    pub reason: u64,
}

impl Refusal {
    pub fn new(number: u64, place: u64) -> Refusal {
        Refusal { number, place, reason: 0 }
    }
}

/// An accepted source.
#[derive(Clone, Debug, PartialEq, Eq)]
pub struct Reading {
    /// 1 little or 2 big, then the place of the line.
    pub endianness: [u64; ENDIANNESS_WORDS],
    /// The words of each table, row after row.
    pub tables: [Vec<u64>; 5],
}

impl Reading {
    pub fn rows(&self, table: usize) -> ChunksExact<'_, u64> {
        self.tables[table].chunks_exact(ROW_WORDS[table])
    }

    /// How many rows each table has.
    pub fn counts(&self) -> [u64; 5] {
        std::array::from_fn(|table| self.rows(table).len() as u64)
    }
}

//! Moving rows: what a reading has to be when more is written behind its source (the last paragraph
//! of 01's "Rows") or into it (W12 of 02).

use crate::reading::{
    Reading, CONDITION, CONSTRAINTS, DECLARATIONS, END, ENUM, FIELDS, GROUP_CONSTRAINTS,
    HEADER_CONSTRAINTS, ID, KIND, MEMBERS, NAME_A, NAME_B, NAME_C, PARENT_OR_FUNCTION, ROW_WORDS,
    START, TAGS, TAG_NAME,
};

/// The keyword lines, little first, as the endianness counts them from 1.
pub const KEYWORD_LINES: [&str; 2] = ["little_endian_packets\n", "big_endian_packets\n"];

/// The names of each table's rows.
const NAMES: [&[usize]; 5] =
    [&[ID, PARENT_OR_FUNCTION], &[NAME_A, NAME_B, NAME_C], &[ID], &[ID, TAG_NAME], &[]];

/// A source that was accepted.
#[derive(Clone, Debug)]
pub struct Old {
    pub source: String,
    pub reading: Reading,
}

impl Old {
    /// The line that has the source's own keyword.
    pub fn keyword_line(&self) -> &'static str {
        KEYWORD_LINES[self.reading.endianness[0] as usize - 1]
    }
}

/// A text that was accepted behind a keyword line, and the reading of both.
#[derive(Clone, Debug)]
pub struct More {
    pub keyword_line: &'static str,
    pub text: String,
    pub reading: Reading,
}

/// The reading of the old source, a newline and more.
pub fn appended(old: &Old, more: &More) -> Reading {
    let shift = Shift {
        bytes: (old.source.len() + 1 - more.keyword_line.len()) as u64,
        lines: line_feeds(&old.source),
        rows: old.reading.counts(),
        cut: None,
    };
    joined(&old.reading, &shift.moved(&more.reading, [0; 5]))
}

/// The reading of an old source with a newline, more and a newline where it is cut; `before` is
/// the old source up to the cut.
pub fn inserted(old: &Old, before: &Old, more: &More) -> Reading {
    let shift = Shift {
        bytes: more.text.len() as u64 + 2,
        lines: line_feeds(&more.text) + 2,
        rows: more.reading.counts(),
        cut: Some(Cut::behind(&before.source)),
    };
    joined(&appended(before, more), &shift.moved(&old.reading, before.reading.counts()))
}

/// The lists of a row: the word of each list's first row, and the table that it points into.
pub fn lists(table: usize, row: &[u64]) -> &'static [(usize, usize)] {
    match table {
        DECLARATIONS if row[KIND] == ENUM => &[(MEMBERS, TAGS), (HEADER_CONSTRAINTS, CONSTRAINTS)],
        DECLARATIONS => &[(MEMBERS, FIELDS), (HEADER_CONSTRAINTS, CONSTRAINTS)],
        FIELDS => &[(GROUP_CONSTRAINTS, CONSTRAINTS)],
        _ => &[],
    }
}

/// Where a source is cut.
#[derive(Clone, Copy, Debug)]
pub struct Cut {
    pub line: u64,
    pub column: u64,
}

impl Cut {
    /// The cut behind the last byte of a text.
    pub fn behind(text: &str) -> Cut {
        let line_start = text.rfind('\n').map_or(0, |offset| offset + 1);
        Cut { line: line_feeds(text), column: (text.len() - line_start) as u64 }
    }
}

/// How far rows move.
struct Shift {
    bytes: u64,
    lines: u64,
    /// The rows of each table that come to stand before the moved ones.
    rows: [u64; 5],
    /// Places on the line of a cut lose its column; without one all columns stay.
    cut: Option<Cut>,
}

impl Shift {
    /// The rows of a reading behind the first ones of each table, moved.
    fn moved(&self, reading: &Reading, first: [u64; 5]) -> [Vec<u64>; 5] {
        std::array::from_fn(|table| {
            let mut words =
                reading.tables[table][first[table] as usize * ROW_WORDS[table]..].to_vec();
            words.chunks_exact_mut(ROW_WORDS[table]).for_each(|row| self.row(table, row));
            words
        })
    }

    fn row(&self, table: usize, row: &mut [u64]) {
        self.place(&mut row[START..]);
        self.place(&mut row[END..]);
        for name in NAMES[table] {
            self.name(&mut row[*name..]);
        }
        for (list, into) in lists(table, row) {
            self.list(&mut row[*list..], *into);
        }
        if table == FIELDS && row[CONDITION] > 0 {
            row[CONDITION] += self.rows[CONSTRAINTS];
        }
    }

    fn place(&self, words: &mut [u64]) {
        let [offset, line, column, ..] = words else { panic!("a place has three words") };
        if let Some(cut) = self.cut.filter(|cut| cut.line == *line) {
            *column -= cut.column;
        }
        *offset += self.bytes;
        *line += self.lines;
    }

    /// An absent name is 0 0; an empty text has an offset, and moves.
    fn name(&self, words: &mut [u64]) {
        let [offset, length, ..] = words else { panic!("a name has two words") };
        if [*offset, *length] != [0, 0] {
            *offset += self.bytes;
        }
    }

    fn list(&self, words: &mut [u64], into: usize) {
        let [first, count, ..] = words else { panic!("a list has two words") };
        if *count > 0 {
            *first += self.rows[into];
        }
    }
}

/// A reading with further rows behind its own.
fn joined(front: &Reading, behind: &[Vec<u64>; 5]) -> Reading {
    let mut reading = front.clone();
    for (table, rows) in reading.tables.iter_mut().zip(behind) {
        table.extend(rows);
    }
    reading
}

fn line_feeds(text: &str) -> u64 {
    text.matches('\n').count() as u64
}

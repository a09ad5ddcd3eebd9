//! What stood at the seams and what was moved there, counted, so that no case goes missing.

use host::moving::{lists, Cut, More, Old};
use host::reading::{
    Reading, COMMENTS, CONDITION, CONSTRAINTS, DECLARATIONS, END, FIELDS, KIND, PARENT_OR_FUNCTION,
    START, TAGS,
};
use host::tally::Seen;

/// What a text begins with, and what it ends with: 1 a block comment, 2 a line comment, 3
/// whitespace, 4 a keyword or a declaration, 5 nothing, where it is empty.
const OLD_FRONT: &str = "old front";
const OLD_END: &str = "old end";
const MORE_FRONT: &str = "more's front";
const MORE_END: &str = "more's end";
const CUT_FRONT: &str = "behind a cut";

/// How many declaration rows a text has: none, one, or 2 for several.
const OLD_ROWS: &str = "old rows";
const MORE_ROWS: &str = "more's rows";

/// The kind of the declaration before a cut; 0 is a test, which has no row.
const CUT_KIND: &str = "cut kind";

/// What is easily moved wrong: first rows of 0 that grow, by the table that they point into; empty
/// function texts, by the kind of their declaration; conditions; starts on a cut's line, by table.
const FIRST_0: &str = "first row 0";
const EMPTY_TEXT: &str = "empty text";
const CONDITIONAL: &str = "condition";
const CUT_LINE: &str = "on a cut's line";

const WHITESPACE: [char; 4] = [' ', '\t', '\r', '\n'];

/// Panics unless everything was seen so often.
pub fn require(seen: &Seen, least: usize) {
    seen.require(OLD_FRONT, 1..=4, least);
    seen.require(OLD_END, 1..=4, least);
    seen.require(MORE_FRONT, 1..=5, least);
    seen.require(MORE_END, 1..=4, least);
    seen.require(CUT_FRONT, 1..=5, least);
    seen.require(OLD_ROWS, 0..=2, least);
    seen.require(MORE_ROWS, 0..=2, least);
    seen.require(CUT_KIND, 0..=6, least);
    seen.require(FIRST_0, [FIELDS, TAGS, CONSTRAINTS].map(number), least);
    seen.require(EMPTY_TEXT, [5, 6], least);
    seen.require(CONDITIONAL, [1], least);
    seen.require(CUT_LINE, 1..=5, least);
}

pub fn append(seen: &mut Seen, old: &Old, more: &More) {
    seen.note(OLD_FRONT, front(&old.source, 0, &old.reading));
    seen.note(OLD_END, end(&old.source, &old.reading));
    seen.note(OLD_ROWS, old.reading.counts()[DECLARATIONS].min(2));
    moved(seen, more);
}

pub fn insert(seen: &mut Seen, old: &Old, before: &Old, more: &More) {
    let cut = before.source.len();
    seen.note(CUT_FRONT, front(&old.source, cut, &old.reading));
    let declaration = before.reading.rows(DECLARATIONS).find(|row| row[END] == cut as u64);
    seen.note(CUT_KIND, declaration.map_or(0, |row| row[KIND]));
    let Cut { line, .. } = Cut::behind(&before.source);
    for (table, count) in before.reading.counts().into_iter().enumerate() {
        let behind = old.reading.rows(table).skip(count as usize);
        behind
            .filter(|row| row[START + 1] == line)
            .for_each(|_| seen.note(CUT_LINE, number(table)));
    }
    moved(seen, more);
}

fn moved(seen: &mut Seen, More { keyword_line, text, reading }: &More) {
    let source = [keyword_line, text.as_str()].concat();
    seen.note(MORE_FRONT, front(&source, keyword_line.len(), reading));
    seen.note(MORE_END, end(&source, reading));
    seen.note(MORE_ROWS, reading.counts()[DECLARATIONS].min(2));
    for table in [DECLARATIONS, FIELDS] {
        for row in reading.rows(table) {
            let grown = lists(table, row).iter().filter(|(list, _)| row[*list + 1] > 0);
            let from_0 = grown.filter(|(list, _)| row[*list] == 0);
            from_0.for_each(|(_, into)| seen.note(FIRST_0, number(*into)));
        }
    }
    for row in reading.rows(DECLARATIONS) {
        if row[PARENT_OR_FUNCTION] > 0 && row[PARENT_OR_FUNCTION + 1] == 0 {
            seen.note(EMPTY_TEXT, row[KIND]);
        }
    }
    let conditional = reading.rows(FIELDS).filter(|row| row[CONDITION] > 0);
    conditional.for_each(|_| seen.note(CONDITIONAL, 1));
}

/// What begins at an offset of a source.
fn front(source: &str, offset: usize, reading: &Reading) -> u64 {
    match reading.rows(COMMENTS).find(|row| row[START] == offset as u64) {
        Some(comment) => comment[KIND],
        None if source[offset..].starts_with(WHITESPACE) => 3,
        None if offset < source.len() => 4,
        None => 5,
    }
}

/// What ends where a source does.
fn end(source: &str, reading: &Reading) -> u64 {
    match reading.rows(COMMENTS).find(|row| row[END] == source.len() as u64) {
        Some(comment) => comment[KIND],
        None if source.ends_with(WHITESPACE) => 3,
        None => 4,
    }
}

/// The number of a table.
fn number(table: usize) -> u64 {
    table as u64 + 1
}

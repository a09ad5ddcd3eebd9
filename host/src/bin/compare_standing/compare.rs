//! One source with more behind it, or more put into it, on the port and on the oracle.

use crate::notes;
use host::answer::{self, Limits};
use host::moving::{appended, inserted, More, Old};
use host::parser::{PDLParser, Rule};
use host::port;
use host::reading::{Reading, Refusal};
use host::tally::{Seen, Tally};
use pest::Parser;
use std::collections::HashSet;

/// A whole source, where the old one was parted, and how many bytes more came there.
type Seam = (String, usize, usize);

/// What was compared, and what was seen at the seams.
#[derive(Default)]
pub struct Run {
    pub tally: Tally,
    pub seen: Seen,
    pub appended: HashSet<Seam>,
    pub inserted: HashSet<Seam>,
}

impl Run {
    /// A source, if it is accepted.
    pub fn old(&mut self, source: String) -> Option<Old> {
        let reading = self.read(&source)?;
        Some(Old { source, reading })
    }

    /// A text, if it is accepted behind a keyword line.
    pub fn more(&mut self, keyword_line: &'static str, text: String) -> Option<More> {
        let reading = self.read(&[keyword_line, &text].concat())?;
        Some(More { keyword_line, text, reading })
    }

    fn read(&mut self, source: &str) -> Option<Reading> {
        let mut reading = None;
        self.tally.check(|| reading = read(source).ok());
        reading
    }

    /// More behind a source.
    pub fn append(&mut self, old: &Old, more: &More) {
        let whole = [&old.source, "\n", &more.text].concat();
        self.tally.check(|| {
            agree(&whole, &appended(old, more));
            notes::append(&mut self.seen, old, more);
        });
        self.appended.insert((whole, old.source.len(), more.text.len()));
    }

    /// More in a source, behind the declaration that ends at an offset.
    pub fn insert(&mut self, old: &Old, cut: usize, more: &More) {
        let (before, behind) = old.source.split_at(cut);
        let whole = [before, "\n", &more.text, "\n", behind].concat();
        self.tally.check(|| {
            let reading = read(before).expect("a source that ends with a declaration");
            let before = Old { source: before.to_owned(), reading };
            stand(&before, old);
            agree(&whole, &inserted(old, &before, more));
            notes::insert(&mut self.seen, old, &before, more);
        });
        self.inserted.insert((whole, cut, more.text.len()));
    }
}

/// The answer of the port, with exactly the rows that it needs, and of the oracle.
fn read(source: &str) -> Result<Reading, Refusal> {
    let bytes = source.as_bytes();
    let answer = answer::read(bytes, Limits::library([0; 5]).bytes);
    let rows = answer.as_ref().map_or([0; 5], |reading| reading.counts().map(|n| n as usize));
    assert_eq!(port::reading(bytes, rows), answer, "{source:?}");
    answer
}

/// Panics unless a whole source is accepted with these rows, and no others.
fn agree(whole: &str, wanted: &Reading) {
    let reading = read(whole).unwrap_or_else(|refusal| panic!("{refusal:?} of {whole:?}"));
    assert_eq!(reading.endianness, wanted.endianness, "the endianness of {whole:?}");
    assert_eq!(reading.counts(), wanted.counts(), "the counts of {whole:?}");
    for table in 0..5 {
        for (row, (found, wanted)) in reading.rows(table).zip(wanted.rows(table)).enumerate() {
            assert_eq!(found, wanted, "row {row} of table {} of {whole:?}", table + 1);
        }
    }
}

/// Panics unless the rows of a source's beginning are the first ones of the source.
fn stand(before: &Old, old: &Old) {
    assert_eq!(before.reading.endianness, old.reading.endianness, "{:?}", old.source);
    for (rows, first) in old.reading.tables.iter().zip(&before.reading.tables) {
        assert!(rows.starts_with(first), "{:?}, cut at {}", old.source, before.source.len());
    }
}

/// Where the declarations of an accepted source end, test declarations too.
pub fn ends(source: &str) -> Vec<usize> {
    let mut pairs = PDLParser::parse(Rule::file, source).expect("an accepted source");
    let parts = pairs.next().expect("a file is one pair").into_inner();
    let others = [Rule::COMMENT, Rule::endianness_declaration, Rule::EOI];
    let declarations = parts.filter(|part| !others.contains(&part.as_rule()));
    declarations.map(|declaration| declaration.as_span().end()).collect()
}

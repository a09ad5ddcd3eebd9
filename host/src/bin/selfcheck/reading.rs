//! What holds of every answer to a source, whatever the source.

use crate::aligning;
use host::answer::{fit, read, write, Limits};
use host::parser::{PDLParser, Rule};
use host::reading::{Reading, Refusal, FIELDS, ROW_WORDS};
use host::tally::Seen;
use pest::Parser;

/// Under this name the refusals of sources are counted, 0 for those that are accepted.
pub const ANSWER: &str = "answer";

/// The rows of each table, as they are counted by their kinds.
pub const KINDS: [(&str, u64); 5] =
    [("declaration", 6), ("field", 14), ("tag", 4), ("constraint", 2), ("comment", 2)];

/// Under these names the kinds of conditional fields, and test declarations, are counted.
pub const CONDITIONAL: &str = "conditional field";
pub const TEST: &str = "test";

/// Checks a source; `seen` learns of its refusal, `constructs` of the rows that it makes.
///
/// That the rows are those of the Rust is checked inside `read`, for every source.
pub fn check(source: &[u8], seen: &mut Seen, constructs: &mut Seen) {
    let answer = read(source, Limits::PROGRAM.bytes);
    match &answer {
        Ok(reading) => {
            in_source_order(reading);
            room(reading);
            note(source, reading, constructs);
            aligning::feed_all(reading, constructs);
        }
        Err(refusal) if refusal.number == 3 => mismatch(utf8(source), refusal.place as usize),
        Err(_) => {}
    }
    let answer = answer.and_then(|reading| fit(reading, Limits::PROGRAM.rows));
    seen.note(ANSWER, answer.map_or_else(|refusal| refusal.number, |_| 0));
}

/// Rows stand in the order of their starts.
fn in_source_order(reading: &Reading) {
    for table in 0..5 {
        let starts = reading.rows(table).map(|row| row[1]);
        assert!(starts.is_sorted_by(|a, b| a < b), "table {table} is out of order");
    }
}

/// Exactly the rows needed are enough, one less is refusal 5, and only the rows are written.
fn room(reading: &Reading) {
    const OLD: u64 = 0xfeed;
    let counts = reading.counts();
    let rows = counts.map(|count| count as usize);
    assert_eq!(fit(reading.clone(), rows).as_ref(), Ok(reading));
    for table in (0..5).filter(|table| rows[*table] > 0) {
        let mut fewer = rows;
        fewer[table] -= 1;
        let refusal = Refusal { number: 5, place: table as u64 + 1, reason: counts[table] };
        assert_eq!(fit(reading.clone(), fewer), Err(refusal));
    }
    let room = std::array::from_fn(|table| reading.tables[table].len() + ROW_WORDS[table] + 1);
    let mut tables = room.map(|words| vec![OLD; words]);
    let words = write(&Ok(reading.clone()), tables.each_mut().map(Vec::as_mut_slice));
    assert_eq!((words.counts, words.endianness), (counts, reading.endianness));
    for (table, rows) in tables.iter().zip(&reading.tables) {
        let (front, rest) = table.split_at(rows.len());
        assert!(front == rows && rest.iter().all(|word| *word == OLD));
    }
}

/// The place of 3 is where the longest beginning ends that is a source by itself, blanks
/// behind it included; without an endianness line it is where the leading blanks end.
fn mismatch(source: &str, place: usize) {
    let matches = |text: &str| PDLParser::parse(Rule::file, text).is_ok();
    let (before, after) = source.split_at(place);
    let blanks_only = || matches(&format!("{before}\nbig_endian_packets\n"));
    assert!(matches(before) || blanks_only(), "no whole source up to {place}: {source:?}");
    assert!(!begins_with_blank(after), "a blank at {place}: {source:?}");
    // A longer one would end with a declaration or with the endianness line.
    let declarations = after.match_indices(['}', '"']).map(|(offset, _)| offset + 1);
    let headers = ["little_endian_packets\n", "big_endian_packets\n"].map(str::len);
    for end in declarations.chain(headers) {
        let longer = source.get(..place + end).is_some_and(matches);
        assert!(!longer, "more than {place} bytes are a source: {source:?}");
    }
}

fn begins_with_blank(text: &str) -> bool {
    let block = text.strip_prefix("/*").is_some_and(|rest| rest.contains("*/"));
    block || text.starts_with("//") || text.starts_with([' ', '\t', '\r', '\n'])
}

fn note(source: &[u8], reading: &Reading, constructs: &mut Seen) {
    for (table, (name, _)) in KINDS.into_iter().enumerate() {
        for row in reading.rows(table) {
            constructs.note(name, row[0]);
        }
    }
    for field in reading.rows(FIELDS).filter(|field| field[19] > 0) {
        constructs.note(CONDITIONAL, field[0]);
    }
    // Test declarations make no rows.
    let pairs = PDLParser::parse(Rule::file, utf8(source)).expect("an accepted source");
    let tests = pairs.flatten().filter(|pair| pair.as_rule() == Rule::test_declaration);
    tests.for_each(|_| constructs.note(TEST, 0));
}

/// A source that was not refused for its bytes.
fn utf8(source: &[u8]) -> &str {
    std::str::from_utf8(source).expect("a source in UTF-8")
}

//! The whole answer to a source, refusals 1 to 5 in 01's order, and what it leaves in tables.

use crate::parser::{PDLParser, Rule};
use crate::reading::{Reading, Refusal, ENDIANNESS_WORDS, ROW_WORDS};
use crate::{check_ast, place, rows};
use pest::Parser;

/// What a caller allows: bytes of source, and rows of each table.
#[derive(Clone, Copy, Debug)]
pub struct Limits {
    pub bytes: usize,
    pub rows: [usize; 5],
}

impl Limits {
    /// The program that reads standard input.
    pub const PROGRAM: Limits = Limits { bytes: 16_384, rows: [40, 100, 100, 60, 100] };

    /// The library, with as much room as it is lent.
    pub fn library(rows: [usize; 5]) -> Limits {
        let bytes = 1_048_576;
        Limits { bytes, rows }
    }
}

/// A source's reading under limits, or the first refusal in the order 1, 2, 3, 4, 5.
pub fn answer(source: &[u8], limits: &Limits) -> Result<Reading, Refusal> {
    read(source, limits.bytes).and_then(|reading| fit(reading, limits.rows))
}

/// Refusals 1 to 4, which hang on the source alone.
pub fn read(source: &[u8], bytes: usize) -> Result<Reading, Refusal> {
    if source.len() > bytes {
        return Err(Refusal::new(1, bytes as u64));
    }
    let source =
        std::str::from_utf8(source).map_err(|error| Refusal::new(2, error.valid_up_to() as u64))?;
    let reading = match PDLParser::parse(Rule::file, source) {
        Ok(mut pairs) => rows::rows(pairs.next().expect("a file is one pair")),
        Err(_) => Err(Refusal::new(3, place::of_mismatch(source) as u64)),
    };
    check_ast::check(source, &reading);
    reading
}

/// Refusal 5: the lowest table that is short, and the rows it needs.
pub fn fit(reading: Reading, rows: [usize; 5]) -> Result<Reading, Refusal> {
    let mut needed = (1..).zip(reading.counts()).zip(rows);
    match needed.find(|((_, count), room)| *count > *room as u64) {
        Some(((table, reason), _)) => Err(Refusal { number: 5, place: table, reason }),
        None => Ok(reading),
    }
}

/// The words that a call of the library answers beside its tables.
#[derive(Clone, Copy, Debug, Default, PartialEq, Eq)]
pub struct Words {
    pub refusal: Refusal,
    pub counts: [u64; 5],
    pub endianness: [u64; ENDIANNESS_WORDS],
}

/// Reads a source into lent tables, as the library does.
pub fn read_into(source: &[u8], tables: [&mut [u64]; 5]) -> Words {
    let rows = std::array::from_fn(|table| tables[table].len() / ROW_WORDS[table]);
    write(&answer(source, &Limits::library(rows)), tables)
}

/// Writes an answer into lent tables: rows go to the front, and all other words stay.
pub fn write(answer: &Result<Reading, Refusal>, tables: [&mut [u64]; 5]) -> Words {
    match answer {
        Err(refusal) => Words { refusal: *refusal, ..Words::default() },
        Ok(reading) => {
            for (table, rows) in tables.into_iter().zip(&reading.tables) {
                table[..rows.len()].copy_from_slice(rows);
            }
            let (counts, endianness) = (reading.counts(), reading.endianness);
            Words { counts, endianness, ..Words::default() }
        }
    }
}

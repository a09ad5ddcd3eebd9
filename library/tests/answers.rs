//! The rows and layouts that this package hands out, against the stored answers of the unchanged Rust.

use std::fmt::Write;
use std::fs;
use std::path::Path;

use pdl_front::{read, read_into, words, Reading, Refusal, Table, Tables};

/// The longest source that the programs of the stored answers take, in bytes.
const LONGEST: usize = 16384;

/// The letters of the tables' lines.
const LETTERS: [(Table, char); 5] = [
    (Table::Declarations, 'D'),
    (Table::Fields, 'F'),
    (Table::Tags, 'T'),
    (Table::Constraints, 'C'),
    (Table::Comments, 'M'),
];

/// The bytes of a file of the repository.
fn bytes_of(path: &str) -> Vec<u8> {
    let path = Path::new(env!("CARGO_MANIFEST_DIR")).join("..").join(path);
    fs::read(&path).unwrap_or_else(|error| panic!("{}: {error}", path.display()))
}

fn line(letter: char, words: &[u64]) -> String {
    let mut line = letter.to_string();
    for word in words {
        write!(line, " {word}").unwrap();
    }
    line + "\n"
}

fn refused(refusal: Refusal) -> String {
    line('R', &[refusal.number, refusal.place as u64, refusal.reason])
}

/// The lines of a reading: the endianness, then the rows of each table.
fn lines(reading: &Reading) -> String {
    let span = reading.endianness_span();
    let [start, end] =
        [span.start, span.end].map(|at| [at.offset as u64, at.line as u64, at.column as u64]);
    let mut lines = line('E', &[&[reading.endianness().number()][..], &start, &end].concat());
    for (table, letter) in LETTERS {
        lines.extend(
            reading.words(table).chunks_exact(table.row_words()).map(|row| line(letter, row)),
        );
    }
    lines
}

/// What the programs answer of a source, with the room that they have.
fn answer(source: &[u8]) -> String {
    if source.len() > LONGEST {
        return format!("R 1 {LONGEST} 0\n");
    }
    let mut tables = Tables {
        declarations: &mut [0; 40 * words::DECLARATION_WORDS],
        fields: &mut [0; 100 * words::FIELD_WORDS],
        tags: &mut [0; 100 * words::TAG_WORDS],
        constraints: &mut [0; 60 * words::CONSTRAINT_WORDS],
        comments: &mut [0; 100 * words::COMMENT_WORDS],
    };
    let (lent, owned) = (read_into(source, &mut tables), read(source));
    match lent {
        Ok(lent) => {
            assert_eq!(owned, Ok(lent.clone()));
            lines(&lent)
        }
        Err(refusal) => {
            assert!(refusal.table().is_some() || owned == Err(refusal));
            refused(refusal)
        }
    }
}

/// Takes a line off the front of a list.
fn take_line<'l>(list: &mut &'l [u8]) -> &'l str {
    let end = list.iter().position(|byte| *byte == b'\n').expect("a line ends");
    let (line, rest) = list.split_at(end);
    *list = &rest[1..];
    std::str::from_utf8(line).expect("a line of numbers is UTF-8")
}

/// Takes so many bytes and the LF behind them off the front of a list.
fn take<'l>(list: &mut &'l [u8], length: &str) -> &'l [u8] {
    let (taken, rest) = list.split_at(length.parse().expect("a length is a number"));
    *list = &rest[1..];
    taken
}

#[test]
fn every_stored_answer_is_given() {
    let list = bytes_of("crates/replay_answers/stdin");
    let mut list = &list[..];
    let mut entries = 0;
    loop {
        let head = take_line(&mut list);
        match head.split(' ').collect::<Vec<_>>()[..] {
            ["S", source, lines] => {
                let source = take(&mut list, source);
                assert_eq!(
                    answer(source),
                    String::from_utf8_lossy(take(&mut list, lines)),
                    "entry {entries}"
                );
                entries += 1;
            }
            ["Z", count] => break assert_eq!(count.parse(), Ok(entries)),
            _ => assert!(head.starts_with('#'), "{head}"),
        }
    }
    assert!(entries > 500);
}

#[test]
fn the_rows_of_the_sample_are_those_that_are_stored() {
    assert_eq!(
        answer(&bytes_of("crates/pdl_tables/stdin")),
        String::from_utf8_lossy(&bytes_of("crates/pdl_tables/stdout"))
    );
}

#[test]
fn the_layouts_of_the_sample_are_those_that_are_stored() {
    let source = bytes_of("crates/pdl_layout/stdin");
    let reading = read(&source).unwrap();
    let mut lines = String::new();
    for declaration in reading.declarations().filter(|it| (2..=4).contains(&it.kind().number())) {
        let index = declaration.index() as u64;
        match declaration.layout() {
            Ok(layout) => {
                lines += &line(
                    'L',
                    &[index, 0, 0, 0, layout.placed().len() as u64, layout.chunks().len() as u64],
                );
                lines
                    .extend(layout.placed().map(|it| line('P', &[it.symbol, it.width, it.offset])));
                lines.extend(layout.chunks().map(|chunk| line('K', chunk.words())));
            }
            Err(refusal) => {
                lines +=
                    &line('L', &[index, refusal.number, refusal.place as u64, refusal.reason, 0, 0])
            }
        }
    }
    assert_eq!(lines, String::from_utf8_lossy(&bytes_of("crates/pdl_layout/stdout")));
}

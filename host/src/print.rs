//! The lines of 01's program, and those of a layout.

use crate::aligner::Room;
use crate::answer::{self, Limits};
use crate::layout::{feed, Layout};
use crate::reading::{Reading, Refusal, DECLARATIONS, FIELDS};

/// The letters of the tables' lines, in number order.
const LETTERS: [&str; 5] = ["D", "F", "T", "C", "M"];

/// What 01's programs print of a source: its tables, or the layouts of its declarations.
pub fn program(source: &[u8], layouts_wanted: bool) -> String {
    lines(answer::answer(source, &Limits::PROGRAM), layouts_wanted)
}

/// The same of a source that is as long as the library takes, with as many rows as it needs.
pub fn without_limits(source: &[u8], layouts_wanted: bool) -> String {
    lines(answer::read(source, Limits::library([0; 5]).bytes), layouts_wanted)
}

fn lines(answered: Result<Reading, Refusal>, layouts_wanted: bool) -> String {
    match answered {
        Ok(reading) if layouts_wanted => layouts(&reading),
        answered => answer(&answered),
    }
}

/// The lines of an answer: E, D, F, T, C, M, or the one line R.
pub fn answer(answer: &Result<Reading, Refusal>) -> String {
    match answer {
        Ok(reading) => {
            let mut lines = line("E", &reading.endianness);
            for (table, letter) in LETTERS.iter().enumerate() {
                lines.extend(reading.rows(table).map(|row| line(letter, row)));
            }
            lines
        }
        Err(Refusal { number, place, reason }) => line("R", &[*number, *place, *reason]),
    }
}

/// The lines of the layouts of all packets, structs and groups.
pub fn layouts(reading: &Reading) -> String {
    layouts_by(reading, |declarations, fields, row| feed(declarations, fields, row, Room::ENOUGH))
}

/// The same, fed by a function over the words of declaration rows and of field rows.
pub fn layouts_by(
    reading: &Reading,
    feed: impl Fn(&[u64], &[u64], u64) -> Result<Layout, Refusal>,
) -> String {
    let [declarations, fields] = [DECLARATIONS, FIELDS].map(|table| &reading.tables[table]);
    (0..)
        .zip(reading.rows(DECLARATIONS))
        .filter(|(_, declaration)| (2..=4).contains(&declaration[0]))
        .map(|(row, _)| layout(row, &feed(declarations, fields, row)))
        .collect()
}

/// The lines of a declaration's layout: L (row, number, place, reason, placed, chunks), and
/// then P for each placed field and K for each chunk.
fn layout(row: u64, layout: &Result<Layout, Refusal>) -> String {
    match layout {
        Ok(Layout { placed, chunks }) => {
            let (placed_count, chunk_count) = (placed.len() as u64, chunks.len() as u64);
            let mut lines = line("L", &[row, 0, 0, 0, placed_count, chunk_count]);
            lines.extend(placed.iter().map(|row| line("P", row)));
            lines.extend(chunks.iter().map(|row| line("K", row)));
            lines
        }
        Err(refusal) => {
            let Refusal { number, place, reason } = *refusal;
            line("L", &[row, number, place, reason, 0, 0])
        }
    }
}

fn line(letter: &str, words: &[u64]) -> String {
    let words: String = words.iter().map(|word| format!(" {word}")).collect();
    format!("{letter}{words}\n")
}

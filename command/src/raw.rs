//! The rows and layouts as lines of numbers: a letter, then the words, parted by one space.

use std::fmt::Write;

use pdl_front::words::START_OFFSET;
use pdl_front::{Layout, Reading, Refusal, Span, Table};

use crate::page::Page;
use crate::selection::{owner, Selection};

/// Puts a line behind a page.
fn put(page: &mut Page, letter: char, words: impl IntoIterator<Item = u64>) {
    page.text.push(letter);
    for word in words {
        write!(page.text, " {word}").expect("a string takes all");
    }
    page.text.push('\n');
}

/// The line of a refused reading.
pub fn refusal(refusal: &Refusal) -> Page {
    let mut page = Page { refused: true, ..Page::default() };
    put(&mut page, 'R', [refusal.number, refusal.place as u64, refusal.reason]);
    page
}

/// The lines of the rows of a reading, table by table.
pub fn tables(reading: &Reading, only: &Selection) -> Page {
    let mut page = Page::default();
    let order = [reading.endianness().number()];
    put(&mut page, 'E', order.into_iter().chain(span_words(reading.endianness_span())));
    for (table, letter) in Table::ALL.iter().zip("DFTCM".chars()) {
        for row in reading.words(*table).chunks_exact(table.row_words()) {
            if only.is_all() || only.has_row_of(&owner(reading, row[START_OFFSET] as usize)) {
                put(&mut page, letter, row.iter().copied());
            }
        }
    }
    page
}

fn span_words(span: Span) -> impl Iterator<Item = u64> {
    let places = [span.start, span.end].into_iter();
    places.flat_map(|place| [place.offset, place.line, place.column]).map(|word| word as u64)
}

/// The lines of the layouts that are asked for.
pub fn layouts(reading: &Reading, only: &Selection) -> Page {
    let mut page = Page::default();
    for (declaration, layout) in only.layouts(reading) {
        let row = declaration.index() as u64;
        match layout {
            Ok(layout) => put_layout(&mut page, row, &layout),
            Err(refusal) => {
                page.refused = true;
                put(
                    &mut page,
                    'L',
                    [row, refusal.number, refusal.place as u64, refusal.reason, 0, 0],
                );
            }
        }
    }
    page
}

fn put_layout(page: &mut Page, row: u64, layout: &Layout) {
    put(page, 'L', [row, 0, 0, 0, layout.placed().len() as u64, layout.chunks().len() as u64]);
    for placed in layout.placed() {
        put(page, 'P', [placed.symbol, placed.width, placed.offset]);
    }
    for chunk in layout.chunks() {
        put(page, 'K', chunk.words().iter().copied());
    }
}

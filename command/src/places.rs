//! Places as a person counts them: lines and columns from 1, and columns in characters.

use std::fmt::{self, Display, Formatter};

use pdl_front::{Place, Span};

/// How many bytes of a source are counted at once.
const BLOCK: usize = 64;

/// Counts the characters before a place, wherever it stands, in the same short time.
pub struct Places<'s> {
    source: &'s [u8],
    /// How many bytes before each block start no character.
    before: Vec<usize>,
}

impl<'s> Places<'s> {
    /// The places of a source.
    pub fn new(source: &'s [u8]) -> Places<'s> {
        let mut before = vec![0];
        let mut count = 0;
        for block in source.chunks(BLOCK) {
            count += continuing(block);
            before.push(count);
        }
        Places { source, before }
    }

    /// The column of a place, in characters from 1. A byte that is not UTF-8 counts as a character unless it could continue one.
    pub fn column(&self, place: Place) -> usize {
        let start = place.offset - place.column;
        1 + place.column - (self.continuing_before(place.offset) - self.continuing_before(start))
    }

    /// From where to where a span goes: lines and columns.
    pub fn of_span(&self, span: Span) -> impl Display {
        let Span { start, end } = span;
        FromTo([(start.line + 1, self.column(start)), (end.line + 1, self.column(end))])
    }

    /// A place in a sentence.
    pub fn in_words(&self, place: Place) -> String {
        format!("line {}, column {}", place.line + 1, self.column(place))
    }

    fn continuing_before(&self, offset: usize) -> usize {
        let block = offset / BLOCK;
        match self.before.get(block + 1) {
            Some(behind) if *behind > self.before[block] => {
                self.before[block] + continuing(&self.source[block * BLOCK..offset])
            }
            // Most blocks have no such byte, and behind the last there is none.
            _ => self.before[block],
        }
    }
}

/// Two lines and columns.
struct FromTo([(usize, usize); 2]);

impl Display for FromTo {
    fn fmt(&self, f: &mut Formatter) -> fmt::Result {
        let [(line, column), (end_line, end_column)] = self.0;
        write!(f, "{line}:{column} to {end_line}:{end_column}")
    }
}

/// How many of these bytes start no character.
fn continuing(bytes: &[u8]) -> usize {
    bytes.iter().filter(|byte| (0x80..0xc0).contains(*byte)).count()
}

#[cfg(test)]
mod tests {
    use super::*;

    #[test]
    fn columns_are_characters_in_every_block() {
        let source = "ab\n日本é".to_owned() + &"é\u{1f39e}x".repeat(100) + "\nü!";
        let places = Places::new(source.as_bytes());
        for (offset, _) in source.char_indices().chain([(source.len(), ' ')]) {
            let place = Place::of(source.as_bytes(), offset);
            let line = &source[offset - place.column..offset];
            assert_eq!(places.column(place), line.chars().count() + 1);
        }
        let [start, end] = [0, source.len()].map(|offset| Place::of(source.as_bytes(), offset));
        assert_eq!(places.of_span(Span { start, end }).to_string(), "1:1 to 3:3");
    }
}

//! Feedings of declaration rows, on the port and on the oracle.

use crate::tables::{around, old, written, Words};
use host::aligner::Room;
use host::answer::{read, Limits};
use host::layout::{feed, Layout};
use host::port::{lay_out, Laid};
use host::reading::{Reading, Refusal, DECLARATIONS, FIELDS, ROW_WORDS};
use host::sources::{self, Rng};
use host::tally::{Seen, Tally};

/// Under these names the numbers of feedings are counted.
pub const WHOLE: &str = "whole rows";
pub const DAMAGED: &str = "damaged rows";

/// The words of a row that feeding looks at, of each table.
const LOOKED_AT: [&[usize]; 2] = [&[0, 13, 14], &[0, 13, 14, 15, 19]];

/// What a damaged word may say.
const WRONG: &[u64] = &[0, 1, 2, 3, 4, 5, 6, 9, 12, 14, 15, 63, 64, 65, 1 << 63, u64::MAX];

/// Makes a source, and feeds each row that the oracle makes of it, whole and then damaged.
pub fn compare(rng: &mut Rng, tally: &mut Tally, seen: &mut Seen) {
    let declarations = 1 + rng.below(4);
    let source = sources::declarations(rng, declarations);
    let Ok(reading) = read(source.as_bytes(), Limits::PROGRAM.bytes) else {
        return;
    };
    let rows = reading.counts()[DECLARATIONS];
    let whole = Rows::of(&reading);
    for index in (0..=rows).chain([u64::MAX]) {
        whole.compare_sizes(index, tally, seen);
        for _ in 0..if whole.is_fed(index) { 10 } else { 1 } {
            let damaged = whole.damaged(rng);
            let sizes = around(damaged.need(index));
            let words = sizes[rng.below(sizes.len())];
            tally.check(|| damaged.compare(index, words, DAMAGED, seen));
        }
    }
}

/// Feeds each row that the oracle makes of a description, as it is.
pub fn compare_whole(source: &str, tally: &mut Tally, seen: &mut Seen) {
    let limit = Limits::library([0; 5]).bytes;
    let reading = read(source.as_bytes(), limit).expect("a description is read");
    let whole = Rows::of(&reading);
    for index in 0..reading.counts()[DECLARATIONS] {
        whole.compare_sizes(index, tally, seen);
    }
}

/// The words of declaration rows and of field rows.
#[derive(Clone, Debug)]
struct Rows([Vec<u64>; 2]);

impl Rows {
    fn of(reading: &Reading) -> Rows {
        Rows([DECLARATIONS, FIELDS].map(|table| reading.tables[table].clone()))
    }

    fn feed(&self, index: u64, room: Room) -> Result<Layout, Refusal> {
        let Rows([declarations, fields]) = self;
        feed(declarations, fields, index, room)
    }

    /// The rows that a feeding needs; a refused one is tried about a few.
    fn need(&self, index: u64) -> Room {
        match self.feed(index, Room::ENOUGH) {
            Ok(layout) => Room { placed: layout.placed.len(), chunks: layout.chunks.len() },
            Err(_) => Room { placed: 2, chunks: 2 },
        }
    }

    /// Whether a row is a packet, a struct or a group.
    fn is_fed(&self, index: u64) -> bool {
        self.feed(index, Room::ENOUGH).map_or_else(|refusal| refusal.number, |_| 0) != 15
    }

    /// A row over tables of every size around what it needs. Of a row that is not fed at all, one
    /// size tells as much as many.
    fn compare_sizes(&self, index: u64, tally: &mut Tally, seen: &mut Seen) {
        let sizes = around(self.need(index));
        for words in sizes.into_iter().take(if self.is_fed(index) { usize::MAX } else { 1 }) {
            tally.check(|| self.compare(index, words, WHOLE, seen));
        }
    }

    fn compare(&self, index: u64, words: Words, group: &'static str, seen: &mut Seen) {
        let mut placed = old(words.placed);
        let mut chunks = old(words.chunks);
        let Rows([declarations, fields]) = self;
        let laid = lay_out(declarations, fields, index, &mut placed, &mut chunks);
        let (wanted, layout) = match self.feed(index, words.room()) {
            Ok(layout) => {
                let (placed, chunks) = (layout.placed.len() as u64, layout.chunks.len() as u64);
                (Laid { placed, chunks, ..Laid::default() }, layout)
            }
            Err(refusal) => {
                let (number, place) = (refusal.number, refusal.place);
                let nothing = Layout { placed: vec![], chunks: vec![] };
                (Laid { number, place, ..Laid::default() }, nothing)
            }
        };
        assert_eq!(laid, wanted, "row {index} of {self:?} over {words:?}");
        let tables = (written(words.placed, &layout.placed), written(words.chunks, &layout.chunks));
        assert_eq!((placed, chunks), tables, "row {index} of {self:?} over {words:?}");
        seen.note(group, laid.number);
    }

    /// A copy with one or two wrong words, or cut short.
    fn damaged(&self, rng: &mut Rng) -> Rows {
        let Rows(mut tables) = self.clone();
        for _ in 0..1 + rng.below(2) {
            // Declarations are table 0 and fields table 1, here as in a reading.
            let which = rng.below(2);
            let (table, size) = (&mut tables[which], ROW_WORDS[which]);
            let rows = table.len() / size;
            match rng.below(8) {
                _ if rows == 0 => {}
                0 => table.truncate(rng.below(table.len())),
                1 => table[rng.below(rows * size)] = rng.pick(WRONG),
                _ => {
                    let word = rng.below(rows) * size + rng.pick(LOOKED_AT[which]);
                    table[word] = rng.pick(WRONG);
                }
            }
        }
        Rows(tables)
    }
}

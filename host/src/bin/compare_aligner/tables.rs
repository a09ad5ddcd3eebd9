//! Lent tables: their sizes in words, what stands in them, and what has to stand there after.

use host::aligner::Room;

/// Words of a placed row and of a chunk row.
const PLACED: usize = 3;
const CHUNK: usize = 5;

/// The words of the two tables.
#[derive(Clone, Copy, Debug)]
pub struct Words {
    pub placed: usize,
    pub chunks: usize,
}

impl Words {
    /// The rows that fit whole.
    pub fn room(self) -> Room {
        Room { placed: self.placed / PLACED, chunks: self.chunks / CHUNK }
    }
}

/// Every size of one table, from a row less than is needed to a row more, with the other large
/// enough; and both a word short.
pub fn around(need: Room) -> Vec<Words> {
    let sizes = |rows: usize, row: usize| (rows * row).saturating_sub(row)..=(rows + 1) * row;
    let [placed, chunks] = [(need.placed + 1) * PLACED, (need.chunks + 1) * CHUNK];
    let short = |rows: usize, row: usize| (rows * row).saturating_sub(1);
    sizes(need.placed, PLACED)
        .map(|placed| Words { placed, chunks })
        .chain(sizes(need.chunks, CHUNK).map(|chunks| Words { placed, chunks }))
        .chain([Words { placed: short(need.placed, PLACED), chunks: short(need.chunks, CHUNK) }])
        .collect()
}

/// A table of words that are all different and look like no row.
pub fn old(words: usize) -> Vec<u64> {
    (0..words as u64).map(|index| 0xfeed_0000_0000 + index).collect()
}

/// The table that was `old` after these rows were written from its start on.
pub fn written<const N: usize>(words: usize, rows: &[[u64; N]]) -> Vec<u64> {
    let mut table = old(words);
    table[..rows.len() * N].copy_from_slice(rows.as_flattened());
    table
}

/// Writes a row into a table that has room for it.
pub fn put<const N: usize>(table: &mut [u64], at: usize, row: [u64; N]) {
    table[at * N..(at + 1) * N].copy_from_slice(&row);
}

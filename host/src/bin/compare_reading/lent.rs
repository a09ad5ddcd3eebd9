//! Lent tables: their sizes around what a reading needs, and what stands in and beside them.

use host::reading::ROW_WORDS;
use host::sources::Rng;

/// The words of each table.
pub type Sizes = [usize; 5];

/// Words that stand on either side of a lent table and belong to nobody.
const MARGIN: usize = 3;

/// The five tables, each with its margins.
#[derive(Clone, Debug, PartialEq, Eq)]
pub struct Lent([Vec<u64>; 5]);

impl Lent {
    /// Tables of words that are all different and look like no row.
    pub fn new(sizes: Sizes) -> Lent {
        let mut next = 0xfeed_0000_0000;
        Lent(sizes.map(|words| {
            let first = next;
            next += (words + 2 * MARGIN) as u64;
            (first..next).collect()
        }))
    }

    /// The tables without their margins.
    pub fn tables(&mut self) -> [&mut [u64]; 5] {
        self.0.each_mut().map(|table| {
            let end = table.len() - MARGIN;
            &mut table[MARGIN..end]
        })
    }
}

/// The rows that fit whole.
pub fn rows(sizes: Sizes) -> [usize; 5] {
    std::array::from_fn(|table| sizes[table] / ROW_WORDS[table])
}

/// The words of so many rows.
pub fn exactly(rows: [u64; 5]) -> Sizes {
    std::array::from_fn(|table| rows[table] as usize * ROW_WORDS[table])
}

/// A row less, a word less, exactly enough, a word more and a row more of one table, where the
/// others are exactly enough; and every table a word short.
pub fn around(rows: [u64; 5]) -> Vec<Sizes> {
    let enough = exactly(rows);
    let mut sizes = vec![enough, enough.map(|words| words.saturating_sub(1))];
    for (table, row) in ROW_WORDS.into_iter().enumerate() {
        let words = enough[table];
        let less = [row, 1].map(|less| words.checked_sub(less));
        let more = [1, row - 1, row].map(|more| Some(words + more));
        for words in less.into_iter().chain(more).flatten() {
            let mut one = enough;
            one[table] = words;
            sizes.push(one);
        }
    }
    sizes
}

/// No room at all, and then exactly enough for one table more, as tables grow that follow refusal 5.
pub fn growing(rows: [u64; 5]) -> impl Iterator<Item = Sizes> {
    let enough = exactly(rows);
    let grown =
        move |tables| std::array::from_fn(|table| if table < tables { enough[table] } else { 0 });
    (0..ROW_WORDS.len()).map(grown)
}

/// Every size of one table from a row less to a row more, where the others are exactly enough.
pub fn every(rows: [u64; 5]) -> Vec<Sizes> {
    let enough = exactly(rows);
    let mut sizes = vec![[0; 5]];
    for (table, row) in ROW_WORDS.into_iter().enumerate() {
        for words in enough[table].saturating_sub(row)..=enough[table] + row {
            let mut one = enough;
            one[table] = words;
            sizes.push(one);
        }
    }
    sizes
}

/// Tables that are each of any size from a row less to a row more.
pub fn by_chance(rng: &mut Rng, rows: [u64; 5]) -> Sizes {
    let enough = exactly(rows);
    std::array::from_fn(|table| {
        let row = ROW_WORDS[table];
        (enough[table] + rng.below(2 * row + 1)).saturating_sub(row)
    })
}

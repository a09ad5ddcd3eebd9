//! Layouts: where each bit of a declaration stands.

use crate::entries;
use crate::kinds::ChunkKind;
use crate::refusal::Refusal;
use crate::words::{
    CHUNK_COUNT, CHUNK_FIRST, CHUNK_KIND, CHUNK_SYMBOL, CHUNK_WIDTH, CHUNK_WORDS, PLACED_OFFSET,
    PLACED_SYMBOL, PLACED_WIDTH, PLACED_WORDS,
};

/// Chunks one behind the other, each of whole bytes, with the bit fields that are placed in them.
#[derive(Clone, Debug, Default, PartialEq, Eq, Hash)]
pub struct Layout {
    placed: Vec<u64>,
    chunks: Vec<u64>,
}

/// A bit field in its chunk.
#[derive(Clone, Copy, Debug, PartialEq, Eq, Hash)]
pub struct Placed {
    /// What was placed: the row of a field, or what an [`Aligner`](crate::Aligner) was told.
    pub symbol: u64,
    /// How many bits wide it is.
    pub width: u64,
    /// How many bits of its chunk stand before it.
    pub offset: u64,
}

/// A chunk of a layout.
#[derive(Clone, Copy, Debug, PartialEq, Eq, Hash)]
pub struct Chunk<'l> {
    words: &'l [u64],
    placed: &'l [u64],
}

impl Layout {
    /// A layout of tables of which so many rows count.
    pub(crate) fn new(
        mut placed: Vec<u64>,
        placed_rows: usize,
        mut chunks: Vec<u64>,
        chunk_rows: usize,
    ) -> Layout {
        placed.truncate(placed_rows * PLACED_WORDS);
        chunks.truncate(chunk_rows * CHUNK_WORDS);
        Layout { placed, chunks }
    }

    /// The chunks, in their order.
    pub fn chunks(
        &self,
    ) -> impl DoubleEndedIterator<Item = Chunk<'_>> + ExactSizeIterator + Clone + '_ {
        self.chunks.chunks_exact(CHUNK_WORDS).map(move |words| {
            let placed = match ChunkKind::from_number(words[CHUNK_KIND]) {
                Some(ChunkKind::Bits) => rows(&self.placed, words[CHUNK_FIRST], words[CHUNK_COUNT]),
                _ => &[],
            };
            Chunk { words, placed }
        })
    }

    /// All bit fields that are placed, in the order of the chunks.
    pub fn placed(
        &self,
    ) -> impl DoubleEndedIterator<Item = Placed> + ExactSizeIterator + Clone + '_ {
        placed_of(&self.placed)
    }
}

/// So many rows of placed fields, from the first on.
fn rows(placed: &[u64], first: u64, count: u64) -> &[u64] {
    let (first, count) = (first as usize, count as usize);
    &placed[first * PLACED_WORDS..(first + count) * PLACED_WORDS]
}

fn placed_of(
    words: &[u64],
) -> impl DoubleEndedIterator<Item = Placed> + ExactSizeIterator + Clone + '_ {
    words.chunks_exact(PLACED_WORDS).map(|row| Placed {
        symbol: row[PLACED_SYMBOL],
        width: row[PLACED_WIDTH],
        offset: row[PLACED_OFFSET],
    })
}

impl<'l> Chunk<'l> {
    /// What it is.
    pub fn kind(&self) -> ChunkKind {
        ChunkKind::from_number(self.words[CHUNK_KIND])
            .expect("the port is proved to write kinds that there are")
    }

    /// The bit fields in it: of [`ChunkKind::Bits`] alone.
    pub fn placed(
        &self,
    ) -> impl DoubleEndedIterator<Item = Placed> + ExactSizeIterator + Clone + 'l {
        placed_of(self.placed)
    }

    /// How many bits wide it is, if the description tells.
    pub fn width(&self) -> Option<u64> {
        match self.kind() {
            ChunkKind::Bits | ChunkKind::Bytes => Some(self.words[CHUNK_WIDTH]),
            ChunkKind::Dynamic => None,
        }
    }

    /// What the bytes are: the row of a field, or what an [`Aligner`](crate::Aligner) was told. Bits have a symbol each.
    pub fn symbol(&self) -> Option<u64> {
        match self.kind() {
            ChunkKind::Bits => None,
            ChunkKind::Bytes | ChunkKind::Dynamic => Some(self.words[CHUNK_SYMBOL]),
        }
    }

    /// The words of its row, as the port wrote them.
    pub fn words(&self) -> &'l [u64] {
        self.words
    }
}

/// Lays out the declaration of a row, which has so many fields. A field is placed once at most and ends one chunk at most, so that
/// as many rows are always enough.
pub(crate) fn lay_out(
    declarations: &[u64],
    fields: &[u64],
    index: usize,
    rows: usize,
) -> Result<Layout, Refusal> {
    let mut placed = vec![0; rows * PLACED_WORDS];
    let mut chunks = vec![0; rows * CHUNK_WORDS];
    let (number, [place, placed_rows, chunk_rows]) =
        entries::layout(declarations, fields, index, &mut placed, &mut chunks);
    match number {
        0 => Ok(Layout::new(placed, placed_rows as usize, chunks, chunk_rows as usize)),
        _ => Err(Refusal::new(number, place, 0)),
    }
}

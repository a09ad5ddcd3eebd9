//! The byte aligner by itself.

use crate::entries::{self, State};
use crate::layout::Layout;
use crate::refusal::Refusal;
use crate::words::{CHUNK_WORDS, PLACED_WORDS};

/// The widest chunk of bits or bytes, in bits.
pub const MAX_CHUNK_WIDTH: u64 = 64;

/// Puts fields one behind the other into chunks of whole bytes. Its tables grow as they are needed.
///
/// A refused call leaves it as it was, and its refusal has the place 0.
///
/// ```
/// let mut aligner = pdl_front::Aligner::new();
/// aligner.add_bitfield(10, 60)?;
/// assert_eq!(aligner.add_bitfield(11, 5).unwrap_err().number, 12);
/// aligner.add_bitfield(11, 4)?;
/// aligner.add_dyn_bytes(12)?;
/// let layout = aligner.align()?;
/// assert_eq!(layout.chunks().map(|chunk| chunk.width()).collect::<Vec<_>>(), [Some(64), None]);
/// # Ok::<(), pdl_front::Refusal>(())
/// ```
#[derive(Clone, Debug, Default)]
pub struct Aligner {
    state: State,
    placed: Vec<u64>,
    chunks: Vec<u64>,
}

impl Aligner {
    /// An aligner with nothing in it.
    pub fn new() -> Aligner {
        Aligner::default()
    }

    /// Stages a bit field. Where the staged bits fill whole bytes, they become a chunk.
    ///
    /// # Errors
    ///
    /// [`TooWide`](crate::RefusalKind::TooWide) where more than 64 bits would be staged.
    pub fn add_bitfield(&mut self, symbol: u64, width: u64) -> Result<(), Refusal> {
        self.make_room();
        Refusal::of_number(entries::add_bitfield(
            &mut self.state, &mut self.placed, &mut self.chunks, symbol, width,
        ))
    }

    /// Adds bytes of a width in bits, as a chunk of their own.
    ///
    /// # Errors
    ///
    /// [`BytesWhileStaged`](crate::RefusalKind::BytesWhileStaged), [`NotWholeBytes`](crate::RefusalKind::NotWholeBytes) and
    /// [`TooWide`](crate::RefusalKind::TooWide), in this order.
    pub fn add_bytes(&mut self, symbol: u64, width: u64) -> Result<(), Refusal> {
        self.make_room();
        Refusal::of_number(entries::add_bytes(
            &mut self.state, &mut self.placed, &mut self.chunks, symbol, width,
        ))
    }

    /// Adds bytes of an unknown width, as a chunk of their own.
    ///
    /// # Errors
    ///
    /// [`BytesWhileStaged`](crate::RefusalKind::BytesWhileStaged).
    pub fn add_dyn_bytes(&mut self, symbol: u64) -> Result<(), Refusal> {
        self.make_room();
        Refusal::of_number(entries::add_dyn_bytes(
            &mut self.state, &mut self.placed, &mut self.chunks, symbol,
        ))
    }

    /// The layout of all that was added.
    ///
    /// # Errors
    ///
    /// [`EndWhileStaged`](crate::RefusalKind::EndWhileStaged) while bits are staged, also a field without any.
    pub fn align(&self) -> Result<Layout, Refusal> {
        let (number, chunk_rows) = entries::align(self.state, &self.placed, &self.chunks);
        Refusal::of_number(number)?;
        Ok(Layout::new(self.placed.clone(), self.state.placed, self.chunks.clone(), chunk_rows))
    }

    /// Makes room for one row more in each table, which is all that a call can need.
    fn make_room(&mut self) {
        lengthen(&mut self.placed, (self.state.placed + 1) * PLACED_WORDS);
        lengthen(&mut self.chunks, (self.state.chunks + 1) * CHUNK_WORDS);
    }
}

/// Makes a table at least so many words long. What a vector reserves beyond that keeps repeated calls cheap.
fn lengthen(table: &mut Vec<u64>, words: usize) {
    if table.len() < words {
        table.resize(words, 0);
    }
}

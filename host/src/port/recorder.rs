//! The aligner on a lent state, over a table of chunk records.

use super::aligner::{told, Aligner};
use super::entries::{pdl_add_bitfield_to, pdl_add_bytes_to, pdl_add_dyn_bytes_to, pdl_align_to};
use super::entries::{Aligner as State, Chunk};
use crate::aligner::Call;

/// Words of a chunk row.
const CHUNK: usize = 5;

/// An aligner of the port, with all that is lent to it.
#[derive(Clone, Debug)]
pub struct Recorder {
    pub state: State,
    placed: Vec<u64>,
    chunks: Vec<Chunk>,
}

impl Recorder {
    /// The same as an aligner over words; words behind the last whole chunk row are left out.
    pub fn of(aligner: &Aligner) -> Recorder {
        let records = aligner.chunks.chunks_exact(CHUNK).map(|row| {
            let [kind, first, count, width, symbol] = row.try_into().expect("a chunk row");
            Chunk { kind, first, count, width, symbol }
        });
        Recorder { state: aligner.state, placed: aligner.placed.clone(), chunks: records.collect() }
    }

    /// The same as an aligner over words, with these behind the last chunk row.
    pub fn in_words(&self, rest: &[u64]) -> Aligner {
        let row = |it: &Chunk| [it.kind, it.first, it.count, it.width, it.symbol];
        let mut chunks: Vec<u64> = self.chunks.iter().flat_map(row).collect();
        chunks.extend(rest);
        Aligner { state: self.state, placed: self.placed.clone(), chunks }
    }

    /// Adds to the alignment: the number of the refusal, or 0.
    pub fn call(&mut self, call: Call) -> u64 {
        let Recorder { state, placed, chunks } = self;
        let (placed, placed_words) = (placed.as_mut_ptr(), placed.len());
        let (chunks, records) = (chunks.as_mut_ptr(), chunks.len());
        // SAFETY: each entry reads and writes the state, the words of the one table and the
        // records of the other, which are three things apart, and no more.
        unsafe {
            match call {
                Call::Bits { symbol, width } => {
                    pdl_add_bitfield_to(state, placed, placed_words, chunks, records, symbol, width)
                }
                Call::Bytes { symbol, width } => {
                    pdl_add_bytes_to(state, placed, placed_words, chunks, records, symbol, width)
                }
                Call::Dynamic { symbol } => {
                    pdl_add_dyn_bytes_to(state, placed, placed_words, chunks, records, symbol)
                }
            }
        }
    }

    /// Ends the alignment: the count of its chunks, or the number of the refusal.
    pub fn end(&mut self) -> Result<u64, u64> {
        let Recorder { state, placed, chunks } = self;
        let (placed, placed_words) = (placed.as_ptr(), placed.len());
        // SAFETY: the entry reads and writes the state, reads both tables, and no more.
        told(unsafe { pdl_align_to(state, placed, placed_words, chunks.as_ptr(), chunks.len()) })
    }
}

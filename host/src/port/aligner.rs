//! The aligner on a lent state, over tables of words.

use super::entries::{pdl_add_bitfield, pdl_add_bytes, pdl_add_dyn_bytes, pdl_align};
use super::entries::{Aligner as State, Ended};
use crate::aligner::Call;

/// An aligner of the port, with all that is lent to it.
#[derive(Clone, Debug, PartialEq, Eq)]
pub struct Aligner {
    pub state: State,
    pub placed: Vec<u64>,
    pub chunks: Vec<u64>,
}

impl Aligner {
    /// A fresh state over tables of any words.
    pub fn new(placed: Vec<u64>, chunks: Vec<u64>) -> Aligner {
        Aligner { state: State::default(), placed, chunks }
    }

    /// Adds to the alignment: the number of the refusal, or 0.
    pub fn call(&mut self, call: Call) -> u64 {
        let Aligner { state, placed, chunks } = self;
        let (placed, placed_words) = (placed.as_mut_ptr(), placed.len());
        let (chunks, chunk_words) = (chunks.as_mut_ptr(), chunks.len());
        // SAFETY: each entry reads and writes the state and the words of both tables, which are
        // three things apart, and no more.
        unsafe {
            match call {
                Call::Bits { symbol, width } => pdl_add_bitfield(
                    state, placed, placed_words, chunks, chunk_words, symbol, width,
                ),
                Call::Bytes { symbol, width } => {
                    pdl_add_bytes(state, placed, placed_words, chunks, chunk_words, symbol, width)
                }
                Call::Dynamic { symbol } => {
                    pdl_add_dyn_bytes(state, placed, placed_words, chunks, chunk_words, symbol)
                }
            }
        }
    }

    /// Ends the alignment: the count of its chunks, or the number of the refusal.
    pub fn end(&mut self) -> Result<u64, u64> {
        let Aligner { state, placed, chunks } = self;
        let (placed, placed_words) = (placed.as_ptr(), placed.len());
        // SAFETY: the entry reads and writes the state, reads both tables, and no more.
        told(unsafe { pdl_align(state, placed, placed_words, chunks.as_ptr(), chunks.len()) })
    }
}

/// What the end answered.
pub fn told(Ended { number, chunks }: Ended) -> Result<u64, u64> {
    match number {
        0 => Ok(chunks as u64),
        _ => {
            assert_eq!(chunks, 0, "a refused end counts no chunks");
            Err(number)
        }
    }
}

//! The unchanged `ByteAligner`, call by call, with 01's numbers and its rows.

use crate::alignment::{ByteAligner, Chunk};
use crate::quiet;

/// A call that adds to an alignment.
#[derive(Clone, Copy, Debug)]
pub enum Call {
    Bits { symbol: u64, width: u64 },
    Bytes { symbol: u64, width: u64 },
    Dynamic { symbol: u64 },
}

/// The rows of the tables that an alignment is written to.
#[derive(Clone, Copy, Debug)]
pub struct Room {
    pub placed: usize,
    pub chunks: usize,
}

impl Room {
    pub const ENOUGH: Room = Room { placed: usize::MAX, chunks: usize::MAX };
}

/// All that an aligner holds, in 01's rows; the staged fields are the last placed rows.
#[derive(Clone, Debug, Default, PartialEq, Eq)]
pub struct State {
    /// Symbol, width, offset.
    pub placed: Vec<[u64; 3]>,
    /// Kind, first placed row, count, width, symbol.
    pub chunks: Vec<[u64; 5]>,
    pub staged_start: usize,
    pub staged_width: u64,
}

/// An aligner over tables of some room. A refused call leaves it as it was.
#[derive(Clone, Debug)]
pub struct Aligner {
    rust: ByteAligner<u64>,
    room: Room,
}

impl Aligner {
    pub fn new(room: Room) -> Aligner {
        let rust = ByteAligner::new();
        Aligner { rust, room }
    }

    /// Adds to the alignment, or answers the number of the refusal.
    pub fn call(&mut self, call: Call) -> Result<(), u64> {
        if let Call::Bits { width, .. } = call {
            // A release build of the Rust wraps here; 01's total does not.
            let total = self.state().staged_width.checked_add(width);
            total.ok_or(12_u64)?;
        }
        let mut aligner = self.clone();
        quiet::catch(|| aligner.add(call)).map_err(|panic| number(&panic))?;
        let state = aligner.state();
        if state.placed.len() > self.room.placed || state.chunks.len() > self.room.chunks {
            return Err(13);
        }
        *self = aligner;
        Ok(())
    }

    /// Ends the alignment: the count of its chunks, or the number of the refusal.
    pub fn end(&self) -> Result<u64, u64> {
        let alignment = self.rust.clone().align().map_err(|_| 16_u64)?;
        Ok(alignment.len() as u64)
    }

    /// Looks into the aligner. Its fields are private, so a copy is filled up bit by bit until
    /// it is aligned; the fillers are the last fields of its last chunk.
    pub fn state(&self) -> State {
        let mut copy = self.rust.clone();
        let mut fillers = 0;
        while copy.clone().align().is_err() {
            copy.add_bitfield(0, 1);
            fillers += 1;
        }
        let mut state = State::default();
        for chunk in copy.align().expect("it is aligned").iter() {
            state.push(chunk);
        }
        state.staged_start = state.placed.len();
        if fillers > 0 {
            let [_, first, count, ..] = state.chunks.pop().expect("the fillers' chunk");
            let staged = (count - fillers) as usize;
            state.staged_start = first as usize;
            state.staged_width = state.placed[state.staged_start + staged][2];
            state.placed.truncate(state.staged_start + staged);
        }
        state
    }

    fn add(&mut self, call: Call) {
        match call {
            Call::Bits { symbol, width } => self.rust.add_bitfield(symbol, width as usize),
            Call::Bytes { symbol, width } => self.rust.add_bytes(symbol, width as usize),
            Call::Dynamic { symbol } => self.rust.add_dyn_bytes(symbol),
        }
    }
}

impl State {
    fn push(&mut self, chunk: &Chunk<u64>) {
        let row = match chunk {
            Chunk::Bitpack { fields, width } => {
                let first = self.placed.len() as u64;
                let placed = fields
                    .iter()
                    .map(|field| [field.symbol, field.width as u64, field.offset as u64]);
                self.placed.extend(placed);
                [1, first, fields.len() as u64, *width as u64, 0]
            }
            Chunk::Bytes { symbol, width } => [2, 0, 0, *width as u64, *symbol],
            Chunk::DynBytes(symbol) => [3, 0, 0, 0, *symbol],
        };
        self.chunks.push(row);
    }
}

/// 01's number for what the Rust panics with.
fn number(panic: &str) -> u64 {
    match panic {
        text if text.ends_with("must start at a byte boundary") => 10,
        "width must be byte-divisible" => 11,
        text if text.contains("max chunk width of 64") => 12,
        text => panic!("the aligner panics with {text:?}"),
    }
}

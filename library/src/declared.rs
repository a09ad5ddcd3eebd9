//! The entries of the proved port, as they are declared to the linker. The comparisons of `host/` take this file as it is.
//!
//! A lent slice crosses as a pointer and the count of its elements, a lent array or struct as a pointer. The names and their order
//! are those of the port's crate `front`, the fields those of its structs, and a test holds them together.

use super::ENDIANNESS_WORDS;

/// The state of an aligner: rows placed, chunk rows, the first staged placed row, the staged width.
#[derive(Clone, Copy, Debug, Default, PartialEq, Eq)]
#[repr(C)]
pub struct Aligner {
    pub placed: usize,
    pub chunks: usize,
    pub start: usize,
    pub width: u64,
}

/// What the end of an alignment answers: the number of the refusal, or 0, and the count of chunks, 0 where refused.
#[repr(C)]
pub struct Ended {
    pub number: u64,
    pub chunks: usize,
}

/// A chunk as a record: the words of a chunk row.
#[derive(Clone, Copy, Debug, PartialEq, Eq)]
#[repr(C)]
pub struct Chunk {
    pub kind: u64,
    pub first: u64,
    pub count: u64,
    pub width: u64,
    pub symbol: u64,
}

/// A place in a source, from zero and in bytes.
#[derive(Clone, Copy, Debug, PartialEq, Eq)]
#[repr(C)]
pub struct SourceLocation {
    pub offset: usize,
    pub line: usize,
    pub column: usize,
}

extern "C" {
    pub fn pdl_read(
        s: *const u8,
        s_len: usize,
        declarations: *mut u64,
        declarations_len: usize,
        fields: *mut u64,
        fields_len: usize,
        tags: *mut u64,
        tags_len: usize,
        constraints: *mut u64,
        constraints_len: usize,
        comments: *mut u64,
        comments_len: usize,
        refusal: &mut [u64; 2],
        counts: &mut [u64; 5],
        endianness: &mut [u64; ENDIANNESS_WORDS],
    ) -> u64;

    pub fn pdl_layout(
        declarations: *const u64,
        declarations_len: usize,
        fields: *const u64,
        fields_len: usize,
        index: usize,
        placed: *mut u64,
        placed_len: usize,
        chunks: *mut u64,
        chunks_len: usize,
        answer: &mut [u64; 3],
    ) -> u64;

    pub fn pdl_add_bitfield(
        state: &mut Aligner,
        placed: *mut u64,
        placed_len: usize,
        chunks: *mut u64,
        chunks_len: usize,
        symbol: u64,
        width: u64,
    ) -> u64;

    pub fn pdl_add_bytes(
        state: &mut Aligner,
        placed: *mut u64,
        placed_len: usize,
        chunks: *mut u64,
        chunks_len: usize,
        symbol: u64,
        width: u64,
    ) -> u64;

    pub fn pdl_add_dyn_bytes(
        state: &mut Aligner,
        placed: *mut u64,
        placed_len: usize,
        chunks: *mut u64,
        chunks_len: usize,
        symbol: u64,
    ) -> u64;

    pub fn pdl_align(
        state: &mut Aligner,
        placed: *const u64,
        placed_len: usize,
        chunks: *const u64,
        chunks_len: usize,
    ) -> Ended;

    pub fn pdl_add_bitfield_to(
        state: &mut Aligner,
        placed: *mut u64,
        placed_len: usize,
        chunks: *mut Chunk,
        chunks_len: usize,
        symbol: u64,
        width: u64,
    ) -> u64;

    pub fn pdl_add_bytes_to(
        state: &mut Aligner,
        placed: *mut u64,
        placed_len: usize,
        chunks: *mut Chunk,
        chunks_len: usize,
        symbol: u64,
        width: u64,
    ) -> u64;

    pub fn pdl_add_dyn_bytes_to(
        state: &mut Aligner,
        placed: *mut u64,
        placed_len: usize,
        chunks: *mut Chunk,
        chunks_len: usize,
        symbol: u64,
    ) -> u64;

    pub fn pdl_align_to(
        state: &mut Aligner,
        placed: *const u64,
        placed_len: usize,
        chunks: *const Chunk,
        chunks_len: usize,
    ) -> Ended;

    pub fn pdl_match(rule: u64, s: *const u8, s_len: usize) -> usize;

    pub fn pdl_valid_prefix(s: *const u8, s_len: usize) -> usize;

    pub fn pdl_convert(s: *const u8, s_len: usize, value: &mut u64) -> u64;

    pub fn pdl_name_text(
        s: *const u8,
        s_len: usize,
        offset: usize,
        len: usize,
        text: *mut u8,
        text_len: usize,
        count: &mut usize,
    ) -> u64;

    pub fn pdl_location(offset: usize, starts: *const usize, starts_len: usize) -> SourceLocation;
}

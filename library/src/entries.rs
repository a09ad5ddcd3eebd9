//! The C entries of the proved port, each behind a safe function: all that is unsafe in this package.
//!
//! Every call below is safe for the same reason. The port is proved, for all slices and arrays, to read and write what it is
//! lent and nothing else, and to end. References that are handed in are valid, have the stated lengths, and those that may be
//! written overlap no other, because safe Rust made them.

// What this package does not call, the comparisons of `host/` do.
#[allow(dead_code)]
#[path = "declared.rs"]
mod declared;

use crate::words::ENDIANNESS_WORDS;

// Words are as wide as the port's, which is compiled for 64 bits only.
const _: () = assert!(usize::BITS == 64, "the proved port is compiled for 64 bits");

/// What a reading answers beside the words of its tables. The number is 0 where it is accepted.
pub(crate) struct Read {
    pub(crate) number: u64,
    /// The place and the reason of a refusal.
    pub(crate) refusal: [u64; 2],
    pub(crate) counts: [u64; 5],
    pub(crate) endianness: [u64; ENDIANNESS_WORDS],
}

/// Reads a source into lent tables, in the order of their numbers.
pub(crate) fn read(s: &[u8], tables: [&mut [u64]; 5]) -> Read {
    let mut read =
        Read { number: 0, refusal: [0; 2], counts: [0; 5], endianness: [0; ENDIANNESS_WORDS] };
    let [declarations, fields, tags, constraints, comments] = tables;
    // SAFETY: as the head of this file says.
    read.number = unsafe {
        declared::pdl_read(
            s.as_ptr(),
            s.len(),
            declarations.as_mut_ptr(),
            declarations.len(),
            fields.as_mut_ptr(),
            fields.len(),
            tags.as_mut_ptr(),
            tags.len(),
            constraints.as_mut_ptr(),
            constraints.len(),
            comments.as_mut_ptr(),
            comments.len(),
            &mut read.refusal,
            &mut read.counts,
            &mut read.endianness,
        )
    };
    read
}

/// Lays out the declaration row at an index: the number of the refusal, or 0; then its place and the counts of placed and chunk
/// rows.
pub(crate) fn layout(
    declarations: &[u64],
    fields: &[u64],
    index: usize,
    placed: &mut [u64],
    chunks: &mut [u64],
) -> (u64, [u64; 3]) {
    let mut answer = [0; 3];
    // SAFETY: as the head of this file says.
    let number = unsafe {
        declared::pdl_layout(
            declarations.as_ptr(),
            declarations.len(),
            fields.as_ptr(),
            fields.len(),
            index,
            placed.as_mut_ptr(),
            placed.len(),
            chunks.as_mut_ptr(),
            chunks.len(),
            &mut answer,
        )
    };
    (number, answer)
}

pub(crate) use declared::Aligner as State;

/// Stages a bit field: the number of the refusal, or 0.
pub(crate) fn add_bitfield(
    state: &mut State,
    placed: &mut [u64],
    chunks: &mut [u64],
    symbol: u64,
    width: u64,
) -> u64 {
    // SAFETY: as the head of this file says.
    unsafe {
        declared::pdl_add_bitfield(
            state,
            placed.as_mut_ptr(),
            placed.len(),
            chunks.as_mut_ptr(),
            chunks.len(),
            symbol,
            width,
        )
    }
}

/// Adds bytes of a known width: the number of the refusal, or 0.
pub(crate) fn add_bytes(
    state: &mut State,
    placed: &mut [u64],
    chunks: &mut [u64],
    symbol: u64,
    width: u64,
) -> u64 {
    // SAFETY: as the head of this file says.
    unsafe {
        declared::pdl_add_bytes(
            state,
            placed.as_mut_ptr(),
            placed.len(),
            chunks.as_mut_ptr(),
            chunks.len(),
            symbol,
            width,
        )
    }
}

/// Adds bytes of an unknown width: the number of the refusal, or 0.
pub(crate) fn add_dyn_bytes(
    state: &mut State,
    placed: &mut [u64],
    chunks: &mut [u64],
    symbol: u64,
) -> u64 {
    // SAFETY: as the head of this file says.
    unsafe {
        declared::pdl_add_dyn_bytes(
            state,
            placed.as_mut_ptr(),
            placed.len(),
            chunks.as_mut_ptr(),
            chunks.len(),
            symbol,
        )
    }
}

/// Ends an alignment: the number of the refusal, or 0; then the count of chunks.
pub(crate) fn align(mut state: State, placed: &[u64], chunks: &[u64]) -> (u64, usize) {
    // SAFETY: as the head of this file says.
    let ended = unsafe {
        declared::pdl_align(
            &mut state,
            placed.as_ptr(),
            placed.len(),
            chunks.as_ptr(),
            chunks.len(),
        )
    };
    (ended.number, ended.chunks)
}

/// Matches the rule of a number: how much was taken, plus 1; 0 for a miss, or where there is no such rule.
pub(crate) fn match_rule(rule: u64, s: &[u8]) -> usize {
    // SAFETY: as the head of this file says.
    unsafe { declared::pdl_match(rule, s.as_ptr(), s.len()) }
}

/// How long the longest beginning is that is UTF-8.
pub(crate) fn valid_prefix(s: &[u8]) -> usize {
    // SAFETY: as the head of this file says.
    unsafe { declared::pdl_valid_prefix(s.as_ptr(), s.len()) }
}

/// Converts a text: the reason why it does not convert, or 0; then the number.
pub(crate) fn convert(s: &[u8]) -> (u64, u64) {
    let mut value = 0;
    // SAFETY: as the head of this file says.
    let reason = unsafe { declared::pdl_convert(s.as_ptr(), s.len(), &mut value) };
    (reason, value)
}

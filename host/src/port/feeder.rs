//! Feeding a declaration to the aligner.

use super::entries::pdl_layout;

/// What a feeding answers; the number is 0 where it is accepted.
#[derive(Clone, Copy, Debug, Default, PartialEq, Eq)]
pub struct Laid {
    pub number: u64,
    pub place: u64,
    pub placed: u64,
    pub chunks: u64,
}

/// Feeds the fields of a declaration row into lent tables.
pub fn lay_out(
    declarations: &[u64],
    fields: &[u64],
    index: u64,
    placed: &mut [u64],
    chunks: &mut [u64],
) -> Laid {
    let mut answer = [u64::MAX; 3];
    // SAFETY: the entry reads the words of the first two slices, reads and writes those of the
    // last two and writes the answer, and no more.
    let number = unsafe {
        pdl_layout(
            declarations.as_ptr(),
            declarations.len(),
            fields.as_ptr(),
            fields.len(),
            index as usize,
            placed.as_mut_ptr(),
            placed.len(),
            chunks.as_mut_ptr(),
            chunks.len(),
            &mut answer,
        )
    };
    let [place, placed, chunks] = answer;
    Laid { number, place, placed, chunks }
}

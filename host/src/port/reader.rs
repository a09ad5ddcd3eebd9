//! Reading a source into five lent tables.

use super::entries::pdl_read;
use crate::answer::Words;
use crate::reading::{Reading, Refusal, ENDIANNESS_WORDS, ROW_WORDS};

/// Reads a source into lent tables, and answers the words beside them.
pub fn read(source: &[u8], tables: [&mut [u64]; 5]) -> Words {
    let mut refusal = [u64::MAX; 2];
    let mut counts = [u64::MAX; 5];
    let mut endianness = [u64::MAX; ENDIANNESS_WORDS];
    let [declarations, fields, tags, constraints, comments] = tables;
    // SAFETY: the entry reads the bytes of the source, reads and writes the words of the five
    // tables and writes the three arrays, and no more.
    let number = unsafe {
        pdl_read(
            source.as_ptr(),
            source.len(),
            declarations.as_mut_ptr(),
            declarations.len(),
            fields.as_mut_ptr(),
            fields.len(),
            tags.as_mut_ptr(),
            tags.len(),
            constraints.as_mut_ptr(),
            constraints.len(),
            comments.as_mut_ptr(),
            comments.len(),
            &mut refusal,
            &mut counts,
            &mut endianness,
        )
    };
    let [place, reason] = refusal;
    Words { refusal: Refusal { number, place, reason }, counts, endianness }
}

/// Reads a source into tables of so many rows, and answers what it wrote there.
pub fn reading(source: &[u8], rows: [usize; 5]) -> Result<Reading, Refusal> {
    let mut tables: [Vec<u64>; 5] =
        std::array::from_fn(|table| vec![0; rows[table] * ROW_WORDS[table]]);
    let Words { refusal, counts, endianness } =
        read(source, tables.each_mut().map(Vec::as_mut_slice));
    if refusal.number != 0 {
        return Err(refusal);
    }
    for (table, words) in tables.iter_mut().enumerate() {
        words.truncate(counts[table] as usize * ROW_WORDS[table]);
    }
    let reading = Reading { endianness, tables };
    assert_eq!(reading.counts(), counts, "the counts of rows that were lent");
    Ok(reading)
}

//! Feeding a packet, struct or group to the aligner, as the last paragraph of 01's "Aligner".

use crate::aligner::{Aligner, Call, Room};
use crate::reading::{Refusal, DECLARATIONS, FIELDS, ROW_WORDS};

/// The rows of a whole alignment: placed fields and chunks.
#[derive(Clone, Debug, PartialEq, Eq)]
pub struct Layout {
    pub placed: Vec<[u64; 3]>,
    pub chunks: Vec<[u64; 5]>,
}

/// Feeds the fields of a declaration row. The tables may hold any words at all.
pub fn feed(declarations: &[u64], fields: &[u64], row: u64, room: Room) -> Result<Layout, Refusal> {
    let declaration = declarations
        .chunks_exact(ROW_WORDS[DECLARATIONS])
        .nth(row as usize)
        .filter(|declaration| (2..=4).contains(&declaration[0]))
        .ok_or(Refusal::new(15, row))?;
    let (first, count) = (declaration[13], declaration[14]);
    let fields = fields.chunks_exact(ROW_WORDS[FIELDS]);
    if u128::from(first) + u128::from(count) > fields.len() as u128 {
        return Err(Refusal::new(17, row));
    }
    let mut aligner = Aligner::new(room);
    for (index, field) in (first..first + count).zip(fields.skip(first as usize)) {
        let added = call(index, field).and_then(|call| match call {
            Some(call) => aligner.call(call),
            None => Ok(()),
        });
        added.map_err(|number| Refusal::new(number, index))?;
    }
    let state = aligner.state();
    aligner.end().map_err(|number| Refusal::new(number, state.placed[state.staged_start][0]))?;
    Ok(Layout { placed: state.placed, chunks: state.chunks })
}

/// What a field adds to the alignment, or the number of the refusal of its row.
fn call(symbol: u64, field: &[u64]) -> Result<Option<Call>, u64> {
    let (kind, [flag_a, width, flag_b], condition) =
        (field[0], [field[13], field[14], field[15]], field[19]);
    let always_a = matches!(kind, 2..=5 | 8 | 10 | 12);
    if flag_a > 1 || flag_b > 1 || (always_a && flag_a == 0) {
        return Err(17);
    }
    match kind {
        1..=14 if condition != 0 => Ok(Some(Call::Dynamic { symbol })),
        1 | 2 => Ok(None),
        3..=5 | 8 | 10 | 12 => Ok(Some(Call::Bits { symbol, width })),
        6 | 7 | 11 => Ok(Some(Call::Dynamic { symbol })),
        9 | 13 | 14 => Err(14),
        _ => Err(17),
    }
}

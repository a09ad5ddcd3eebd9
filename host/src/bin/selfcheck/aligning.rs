//! What holds of every alignment, call by call and fed from the rows of a reading.

use host::aligner::{Aligner, Call, Room, State};
use host::layout::{feed, Layout};
use host::reading::{Reading, Refusal, DECLARATIONS, FIELDS};
use host::sources::Rng;
use host::tally::Seen;

/// Under these names the refusals of layouts and calls are counted.
pub const LAYOUT: &str = "layout";
pub const DAMAGED: &str = "damaged layout";
pub const CALL: &str = "call";

/// Feeds every declaration of a reading.
pub fn feed_all(reading: &Reading, seen: &mut Seen) {
    let [declarations, fields] = [DECLARATIONS, FIELDS].map(|table| &reading.tables[table]);
    for (row, declaration) in (0..).zip(reading.rows(DECLARATIONS)) {
        let layout = feed(declarations, fields, row, Room::ENOUGH);
        let number = layout.as_ref().map_or_else(|refusal| refusal.number, |_| 0);
        let possible: &[u64] = match declaration[0] {
            2..=4 => &[0, 10, 12, 14, 16],
            _ => &[15],
        };
        assert!(possible.contains(&number), "row {row} is refused with {number}");
        seen.note(LAYOUT, number);
        if let Ok(layout) = layout {
            rows(&layout.placed, &layout.chunks);
            let again = |room| feed(declarations, fields, row, room);
            room(&layout, again);
        }
    }
}

/// Exactly the rows needed are enough, and one less is 13.
fn room(layout: &Layout, again: impl Fn(Room) -> Result<Layout, Refusal>) {
    let enough = Room { placed: layout.placed.len(), chunks: layout.chunks.len() };
    assert_eq!(again(enough).as_ref(), Ok(layout));
    let fewer = [
        enough.placed.checked_sub(1).map(|placed| Room { placed, ..enough }),
        enough.chunks.checked_sub(1).map(|chunks| Room { chunks, ..enough }),
    ];
    for room in fewer.into_iter().flatten() {
        assert_eq!(again(room).map_err(|refusal| refusal.number), Err(13));
    }
}

/// Feeds rows with a word or two changed, whatever they may say then.
pub fn feed_damaged(rng: &mut Rng, reading: &Reading, seen: &mut Seen) {
    let mut tables = [DECLARATIONS, FIELDS].map(|table| reading.tables[table].clone());
    for _ in 0..1 + rng.below(2) {
        let table = &mut tables[rng.below(2)];
        if let Some(word) = (!table.is_empty()).then(|| rng.below(table.len())) {
            table[word] = rng.pick(&[0, 1, 2, 3, 7, 9, 14, 15, 64, 65, u64::MAX]);
        }
    }
    for row in 0..=reading.counts()[DECLARATIONS] {
        let layout = feed(&tables[0], &tables[1], row, Room { placed: 4, chunks: 3 });
        let number = layout.map_or_else(|refusal| refusal.number, |_| 0);
        seen.note(DAMAGED, number);
    }
}

/// Feeds rows that no reading makes: an alone packet with one field, and one word of it changed.
pub fn damaged_rows() {
    let mut declaration = [0; 17];
    (declaration[0], declaration[14]) = (2, 1);
    let mut scalar = [0; 20];
    (scalar[0], scalar[13], scalar[14]) = (12, 1, 8);
    let feed_one = |declaration: [u64; 17], field: [u64; 20], row| {
        let layout = feed(&declaration, &field, row, Room::ENOUGH);
        layout.map_or_else(|refusal| (refusal.number, refusal.place), |_| (0, 0))
    };
    assert_eq!(feed_one(declaration, scalar, 0), (0, 0));
    assert_eq!(feed_one(declaration, scalar, 1), (15, 1));
    // The kind, the first row and the count of the declaration.
    for (word, value, number) in
        [(0, 1, 15), (0, 5, 15), (13, 1, 17), (13, u64::MAX, 17), (14, 2, 17), (14, u64::MAX, 17)]
    {
        let mut damaged = declaration;
        damaged[word] = value;
        assert_eq!(feed_one(damaged, scalar, 0), (number, 0), "word {word}: {value}");
    }
    // The kind and the two flags of the field; a condition does not mend them.
    for condition in [0, 1] {
        for (word, value) in [(0, 0), (0, 15), (13, 0), (13, 2), (15, 2)] {
            let mut damaged = scalar;
            (damaged[19], damaged[word]) = (condition, value);
            assert_eq!(feed_one(declaration, damaged, 0), (17, 0), "word {word}: {value}");
        }
    }
}

/// Makes calls by chance, and holds each against 01's own words.
pub fn calls(rng: &mut Rng, seen: &mut Seen) {
    let room = Room { placed: rng.below(12), chunks: rng.below(8) };
    let mut aligner = Aligner::new(room);
    let mut accepted_bits = 0;
    for symbol in 0..16 {
        let call = any_call(rng, symbol);
        let before = aligner.state();
        let number = aligner.call(call).map_or_else(|number| number, |()| 0);
        assert_eq!(number, expected(&before, call, room), "{call:?} after {before:?}");
        seen.note(CALL, number);
        let after = aligner.state();
        match call {
            _ if number > 0 => assert_eq!(after, before),
            Call::Bits { width, .. } => accepted_bits += width,
            Call::Bytes { .. } | Call::Dynamic { .. } => {}
        }
        let chunk_bits = rows(&after.placed[..after.staged_start], &after.chunks);
        assert_eq!(chunk_bits + after.staged_width, accepted_bits);
        let staged = after.placed.len() > after.staged_start;
        let end = if staged { Err(16) } else { Ok(after.chunks.len() as u64) };
        assert_eq!(aligner.end(), end);
    }
}

fn any_call(rng: &mut Rng, symbol: u64) -> Call {
    let edge = rng.pick(&[0, 1, 7, 8, 63, 64, 65, 72, u64::MAX, u64::MAX - 7]);
    let width = if rng.one_in(4) { edge } else { rng.below(20) as u64 };
    match rng.below(6) {
        0 => Call::Bytes { symbol, width },
        1 => Call::Bytes { symbol, width: width.wrapping_mul(8) },
        2 => Call::Dynamic { symbol },
        _ => Call::Bits { symbol, width },
    }
}

/// The number that 01 gives a call, 0 if it is accepted.
fn expected(state: &State, call: Call, room: Room) -> u64 {
    let staged = state.placed.len() > state.staged_start;
    let (refused, placed, chunks) = match call {
        Call::Bits { width, .. } => {
            let total = u128::from(state.staged_width) + u128::from(width);
            let due = total > 0 && total % 8 == 0;
            (if total > 64 { 12 } else { 0 }, 1, usize::from(due))
        }
        Call::Bytes { .. } if staged => (10, 0, 1),
        Call::Bytes { width, .. } if width % 8 > 0 => (11, 0, 1),
        Call::Bytes { width, .. } => (if width > 64 { 12 } else { 0 }, 0, 1),
        Call::Dynamic { .. } => (if staged { 10 } else { 0 }, 0, 1),
    };
    let full =
        state.placed.len() + placed > room.placed || state.chunks.len() + chunks > room.chunks;
    match refused {
        0 if full => 13,
        number => number,
    }
}

/// Placed rows run on through their chunks; answers the bits of the chunks.
fn rows(placed: &[[u64; 3]], chunks: &[[u64; 5]]) -> u64 {
    let (mut bits, mut next) = (0, 0);
    for [kind, first, count, width, symbol] in chunks.iter().copied() {
        match kind {
            1 => {
                assert_eq!((first, symbol), (next, 0));
                next += count;
                let mut offset = 0;
                for row in &placed[first as usize..next as usize] {
                    assert_eq!(row[2], offset);
                    offset += row[1];
                }
                assert!(offset == width && width > 0 && width % 8 == 0 && width <= 64);
                bits += width;
            }
            2 => assert_eq!((first, count, width % 8), (0, 0, 0)),
            _ => assert_eq!((kind, first, count, width), (3, 0, 0, 0)),
        }
    }
    assert_eq!(next, placed.len() as u64, "every placed row has its chunk");
    bits
}

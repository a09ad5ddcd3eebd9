//! Sequences of calls, on the port and on the unchanged Rust.

use crate::both::Both;
use crate::tables::{old, put, written, Words};
use host::aligner::{Aligner, Call, Room};
use host::port::{self, State};
use host::sources::Rng;
use host::tally::Seen;

/// Under these names numbers are counted: of calls, of ends, of calls on states of any words, and
/// of calls whose sum wraps in the Rust, the one listed difference in an answer.
pub const CALL: &str = "call";
pub const END: &str = "end";
pub const STATE: &str = "call or end";
pub const WRAPPED: &str = "wrapping sum";

/// Widths about every boundary.
const EDGES: &[u64] = &[
    0,
    1,
    7,
    8,
    9,
    15,
    16,
    17,
    31,
    32,
    33,
    55,
    56,
    57,
    63,
    64,
    65,
    71,
    72,
    73,
    127,
    128,
    1 << 32,
    (1 << 63) - 1,
    1 << 63,
    u64::MAX - 71,
    u64::MAX - 63,
    u64::MAX - 7,
    u64::MAX - 1,
    u64::MAX,
];

/// A sequence of calls. Many widths are chosen by what is staged when there is room enough.
pub fn any(rng: &mut Rng) -> Vec<Call> {
    let mut aligner = Aligner::new(Room::ENOUGH);
    let count = rng.below(13);
    let next = |symbol| {
        let call = any_call(rng, aligner.state().staged_width, symbol);
        // A refused call is a call, too.
        let _ = aligner.call(call);
        call
    };
    (0..count as u64).map(next).collect()
}

fn any_call(rng: &mut Rng, staged: u64, symbol: u64) -> Call {
    let symbol = if rng.one_in(8) { u64::MAX - symbol } else { symbol };
    let near = |bound: u64, rng: &mut Rng| {
        bound.wrapping_sub(staged).wrapping_add(rng.below(3) as u64).wrapping_sub(1)
    };
    let width = match rng.below(8) {
        0 => rng.pick(EDGES),
        // About the next chunk, about the widest, and about a sum that wraps to nearly nothing.
        1 | 2 => near(staged.next_multiple_of(8), rng),
        3 => near(64, rng),
        4 => near(rng.pick(&[0, 1, 8, 63, 64]), rng),
        _ => rng.below(20) as u64,
    };
    match rng.below(8) {
        0 => Call::Bytes { symbol, width },
        1 => Call::Bytes { symbol, width: rng.below(11) as u64 * 8 },
        2 => Call::Dynamic { symbol },
        _ => Call::Bits { symbol, width },
    }
}

/// The rows that a sequence needs.
pub fn need(calls: &[Call]) -> Room {
    let mut aligner = Aligner::new(Room::ENOUGH);
    for call in calls {
        let _ = aligner.call(*call);
    }
    let state = aligner.state();
    Room { placed: state.placed.len(), chunks: state.chunks.len() }
}

/// Makes the calls on the oracle and on both forms of the port, over tables of so many words, and
/// holds them together after each.
pub fn compare(calls: &[Call], words: Words, seen: &mut Seen) {
    let mut port = Both::of(port::Aligner::new(old(words.placed), old(words.chunks)));
    let mut oracle = Aligner::new(words.room());
    compare_end(&mut port, &oracle, seen);
    for call in calls {
        note_wrapped(&oracle, *call, seen);
        let number = oracle.call(*call).map_or_else(|number| number, |()| 0);
        assert_eq!(port.call(*call), number, "{call:?} of {calls:?} over {words:?}");
        seen.note(CALL, number);
        compare_end(&mut port, &oracle, seen);
        assert_eq!(
            *port.left(),
            told(&oracle, words),
            "after {call:?} of {calls:?} over {words:?}"
        );
    }
}

fn compare_end(port: &mut Both, oracle: &Aligner, seen: &mut Seen) {
    let end = oracle.end();
    assert_eq!(port.end(), end, "the end of {port:?}");
    seen.note(END, end.map_or_else(|number| number, |_| 0));
}

fn note_wrapped(oracle: &Aligner, call: Call, seen: &mut Seen) {
    if let Call::Bits { width, .. } = call {
        if oracle.state().staged_width.checked_add(width).is_none() {
            seen.note(WRAPPED, 12);
        }
    }
}

/// All that the port's aligner has to be where the oracle's is so.
fn told(oracle: &Aligner, words: Words) -> port::Aligner {
    let state = oracle.state();
    port::Aligner {
        state: State {
            placed: state.placed.len(),
            chunks: state.chunks.len(),
            start: state.staged_start,
            width: state.staged_width,
        },
        placed: written(words.placed, &state.placed),
        chunks: written(words.chunks, &state.chunks),
    }
}

/// Calls on a state of any words. The Rust has no such states, so the numbers, and every word that
/// is left, are 01's.
pub fn compare_state(rng: &mut Rng, seen: &mut Seen) {
    let words = Words { placed: rng.below(13), chunks: rng.below(21) };
    let mut before = port::Aligner::new(old(words.placed), old(words.chunks));
    before.state = any_state(rng, words.room());
    let call = any_call(rng, before.state.width, 7);
    let number = wanted(before.state, words.room(), call);
    let end = wanted_end(before.state, words.room());
    let mut port = Both::of(before.clone());
    assert_eq!(port.end(), end, "the end of {before:?}");
    assert_eq!(*port.left(), before, "the end of {before:?}");
    assert_eq!(port.call(call), number, "{call:?} on {before:?}");
    assert_eq!(*port.left(), left(&before, call, number), "{call:?} on {before:?}");
    seen.note(STATE, number);
    seen.note(STATE, end.map_or_else(|number| number, |_| 0));
}

/// A state that is often sound: each word is seldom above what its table or the others allow.
fn any_state(rng: &mut Rng, room: Room) -> State {
    let up_to = |most: usize, rng: &mut Rng| match rng.below(12) {
        0 => most + 1,
        1 => usize::MAX,
        _ => rng.below(most + 1),
    };
    let placed = up_to(room.placed, rng);
    let start = up_to(placed.min(room.placed), rng);
    let chunks = up_to(room.chunks, rng);
    let width = match start < placed {
        true => rng.pick(&[0, 1, 3, 7, 8, 16, 62, 63, 63, 64]),
        false => rng.pick(&[0, 0, 0, 0, 1, 8]),
    };
    State { placed, chunks, start, width }
}

/// 01's number for a call.
fn wanted(state: State, room: Room, call: Call) -> u64 {
    let State { placed, chunks, start, width } = state;
    match call {
        _ if contradicts(state, room) => 18,
        Call::Bits { width: more, .. } => match u128::from(width) + u128::from(more) {
            65.. => 12,
            _ if placed >= room.placed => 13,
            total if is_due(total as u64) && chunks >= room.chunks => 13,
            _ => 0,
        },
        _ if start < placed => 10,
        Call::Bytes { width, .. } if width % 8 > 0 => 11,
        Call::Bytes { width, .. } if width > 64 => 12,
        _ if chunks >= room.chunks => 13,
        _ => 0,
    }
}

/// 01's answer for the end.
fn wanted_end(state: State, room: Room) -> Result<u64, u64> {
    match state {
        _ if contradicts(state, room) => Err(18),
        _ if state.start < state.placed => Err(16),
        _ => Ok(state.chunks as u64),
    }
}

fn contradicts(State { placed, chunks, start, width }: State, room: Room) -> bool {
    width > 63
        || start > placed
        || placed > room.placed
        || chunks > room.chunks
        || (width > 0 && start == placed)
}

/// Whether a total becomes a chunk.
fn is_due(total: u64) -> bool {
    total > 0 && total.is_multiple_of(8)
}

/// What 01 says that a call leaves which was answered with a number.
fn left(before: &port::Aligner, call: Call, number: u64) -> port::Aligner {
    let mut after = before.clone();
    let State { placed, chunks, start, width } = before.state;
    let chunk = match call {
        _ if number != 0 => None,
        Call::Bytes { symbol, width } => Some([2, 0, 0, width, symbol]),
        Call::Dynamic { symbol } => Some([3, 0, 0, 0, symbol]),
        Call::Bits { symbol, width: more } => {
            let (next, total) = (placed + 1, width + more);
            put(&mut after.placed, placed, [symbol, more, width]);
            let due = is_due(total);
            after.state.placed = next;
            after.state.start = if due { next } else { start };
            after.state.width = if due { 0 } else { total };
            due.then_some([1, start as u64, (next - start) as u64, total, 0])
        }
    };
    if let Some(row) = chunk {
        put(&mut after.chunks, chunks, row);
        after.state.chunks = chunks + 1;
    }
    after
}

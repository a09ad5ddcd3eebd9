//! The places of offsets among starts of lines, on the port and on the unchanged `SourceLocation::new`.

use host::ast::SourceLocation;
use host::port;
use host::sources::{self, Rng};
use host::tally::{Asked, Seen, Tally};

/// Under these names is counted whether a place is on the first line.
const SOURCE: &str = "starts of a source";
const ANY: &str = "any starts";

/// Starts and offsets at the borders.
const EDGES: &[usize] = &[0, 1, 2, 1 << 32, 1 << 63, usize::MAX - 1, usize::MAX];

pub fn check(asked: Asked, tally: &mut Tally) {
    let count = asked.count;
    let mut rng = asked.rng(12);
    let mut seen = Seen::default();
    for _ in 0..count {
        let source = sources::valid(&mut rng);
        let starts = starts_of(source.as_bytes());
        for _ in 0..100 {
            let offset = rng.below(source.len() + 2);
            tally.check(|| compare(offset, &starts, SOURCE, &mut seen));
        }
        for _ in 0..100 {
            let starts = any_starts(&mut rng);
            let offset = any_offset(&mut rng);
            tally.check(|| compare(offset, &starts, ANY, &mut seen));
        }
    }
    tally.check(|| {
        seen.require(SOURCE, [0, 1], count);
        seen.require(ANY, [0, 1], count);
    });
    seen.print("places");
}

/// Where the lines of a source start.
fn starts_of(source: &[u8]) -> Vec<usize> {
    let behind = |(at, byte): (usize, &u8)| (*byte == b'\n').then_some(at + 1);
    [0].into_iter().chain(source.iter().enumerate().filter_map(behind)).collect()
}

/// A list of starts, ascending or not, also an empty one.
fn any_starts(rng: &mut Rng) -> Vec<usize> {
    let mut starts: Vec<_> = (0..rng.below(9)).map(|_| any_offset(rng)).collect();
    if rng.one_in(2) {
        starts.sort_unstable();
    }
    starts
}

fn any_offset(rng: &mut Rng) -> usize {
    match rng.below(4) {
        0 => rng.pick(EDGES),
        1 => rng.word() as usize,
        _ => rng.below(40),
    }
}

fn compare(offset: usize, starts: &[usize], group: &'static str, seen: &mut Seen) {
    let wanted = SourceLocation::new(offset, starts);
    assert_eq!(port::location(offset, starts), wanted, "{offset} among {starts:?}");
    seen.note(group, u64::from(wanted.line == 0));
}

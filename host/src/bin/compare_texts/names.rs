//! The texts of names, on the port and on the Rust: those of pest's nodes, and any part of a source.

use host::parser::{PDLParser, Rule};
use host::port;
use host::sources::{self, Rng};
use host::tally::{Asked, Seen, Tally};
use pest::Parser;

/// Under these names the numbers of calls are counted.
const NODE: &str = "node";
const PART: &str = "part";

/// The number of a name that lies outside its source.
const OUTSIDE: u64 = 6;

pub fn check(asked: Asked, tally: &mut Tally) {
    let count = asked.count;
    let mut rng = asked.rng(11);
    let mut seen = Seen::default();
    for _ in 0..count {
        let source = sources::valid(&mut rng);
        let file = PDLParser::parse(Rule::file, &source).expect("a valid source");
        for node in file.flatten() {
            let (offset, text) = (node.as_span().start(), node.as_str());
            let room = room(&mut rng, text.len());
            tally.check(|| {
                compare(source.as_bytes(), offset, text.len(), Some(text.as_bytes()), room);
                seen.note(NODE, 0);
            });
        }
        for _ in 0..200 {
            tally.check(|| any_part(source.as_bytes(), &mut rng, &mut seen));
        }
    }
    tally.check(|| {
        seen.require(NODE, [0], count * 20);
        seen.require(PART, [0, OUTSIDE], count * 50);
    });
    seen.print("names");
}

/// Any part of a source, and what lies outside of it.
fn any_part(source: &[u8], rng: &mut Rng, seen: &mut Seen) {
    let offset = near(rng, source.len());
    let len = match rng.below(3) {
        0 => near(rng, source.len()),
        _ => near(rng, source.len().saturating_sub(offset)),
    };
    let part = offset.checked_add(len).and_then(|end| source.get(offset..end));
    let room = room(rng, part.map_or(2, <[u8]>::len));
    compare(source, offset, len, part, room);
    seen.note(PART, if part.is_some() { 0 } else { OUTSIDE });
}

/// A number up to a bound, or about it, or about the largest.
fn near(rng: &mut Rng, bound: usize) -> usize {
    match rng.below(8) {
        0 => bound + rng.below(3),
        1 => bound.saturating_sub(rng.below(3)),
        2 => rng.pick(&[0, 1, 1 << 32, 1 << 63, usize::MAX - bound, usize::MAX - 1, usize::MAX]),
        _ => rng.below(bound + 1),
    }
}

/// How many bytes are lent for a text: too few, enough, or more.
fn room(rng: &mut Rng, len: usize) -> usize {
    match rng.below(4) {
        0 => rng.below(len + 1),
        1 => len + 1 + rng.below(3),
        _ => len,
    }
}

/// Asks for a text over lent bytes, and holds every one of them against what the Rust has there.
fn compare(source: &[u8], offset: usize, len: usize, wanted: Option<&[u8]>, room: usize) {
    let mut lent: Vec<u8> = (0..room).map(|at| 0x80 | at as u8).collect();
    let mut left = lent.clone();
    let text = wanted.unwrap_or_default();
    let copied = text.len().min(room);
    left[..copied].copy_from_slice(&text[..copied]);
    let shown = || format!("{len} bytes at {offset} of {:?}", source.escape_ascii().to_string());
    let answer = port::name_text(source, offset, len, &mut lent);
    assert_eq!(answer, wanted.map(<[u8]>::len).ok_or(OUTSIDE), "{}", shown());
    assert_eq!(lent, left, "{} over {room}", shown());
}

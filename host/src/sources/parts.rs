//! Parts of sources: what stands behind each token's start.

use super::rng::Rng;

/// The parts of a source that start at its tokens, each cut somewhere before another or not at all.
pub fn cuts<'s>(rng: &mut Rng, source: &'s str) -> Vec<&'s str> {
    let starts = token_starts(source);
    let part = |(index, start): (usize, &usize)| {
        let behind = &starts[index..];
        let end = match rng.below(3) {
            0 => source.len(),
            1 => behind[rng.below(behind.len())],
            // Most rules end within a few tokens.
            _ => behind[rng.below(behind.len().min(8))],
        };
        &source[*start..end]
    };
    starts.iter().enumerate().map(part).collect()
}

/// Where tokens start: names and numbers stay whole, every other character is one; and the end.
fn token_starts(source: &str) -> Vec<usize> {
    let inside = |c: char| c.is_ascii_alphanumeric() || c == '_';
    let mut before = ' ';
    let mut starts = vec![];
    for (offset, c) in source.char_indices() {
        if !(inside(before) && inside(c)) {
            starts.push(offset);
        }
        before = c;
    }
    starts.push(source.len());
    starts
}

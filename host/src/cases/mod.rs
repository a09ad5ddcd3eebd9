//! Sources written by hand: every construct and every refusal that a source can bring.

mod layouts;
mod limits;
mod matched;
mod mismatched;
mod not_utf8;
mod readings;
mod seams;

pub use layouts::LAYOUTS;
pub use limits::sources as at_limits;
pub use not_utf8::sources as not_utf8;
pub use readings::READINGS;
pub use seams::{APPENDED, INSERTED};

/// Sources that the grammar matches: accepted, or refused 4.
pub fn matched() -> Vec<Vec<u8>> {
    whole(matched::WHOLE, matched::AFTER_HEADER)
}

/// Sources that the grammar does not match: refused 3.
pub fn mismatched() -> Vec<Vec<u8>> {
    whole(mismatched::WHOLE, mismatched::AFTER_HEADER)
}

/// All of them.
pub fn sources() -> Vec<Vec<u8>> {
    let readings = READINGS.iter().map(|(source, _)| source.as_bytes().to_vec()).collect();
    let layouts = LAYOUTS.iter().map(|(rest, _)| headed(rest).into_bytes()).collect();
    [readings, layouts, matched(), mismatched(), not_utf8(), at_limits()].concat()
}

/// A source with the line `little_endian_packets` before the rest of it.
pub fn headed(rest: &str) -> String {
    format!("little_endian_packets\n{rest}")
}

fn whole(sources: &[&str], after_header: &[&str]) -> Vec<Vec<u8>> {
    let sources = sources.iter().map(|source| source.to_string());
    let headed = after_header.iter().map(|rest| headed(rest));
    sources.chain(headed).map(String::into_bytes).collect()
}

//! The place of refusal 3, which is 01's own: pest's error position is another thing.

use crate::parser::{PDLParser, Rule};
use pest::Parser;

/// Where a source that the grammar does not match is refused: after the leading blanks, or
/// after those behind the last whole declaration.
pub fn of_mismatch(source: &str) -> usize {
    let start = blanks(source, 0);
    let Some(mut end) = matched(source, start, Rule::endianness_declaration) else {
        return start;
    };
    loop {
        let start = blanks(source, end);
        match matched(source, start, Rule::declaration) {
            Some(next) => end = next,
            None => return start,
        }
    }
}

/// Where the blanks end that begin at an offset.
pub fn blanks(source: &str, mut offset: usize) -> usize {
    loop {
        let rest = source[offset..].trim_start_matches([' ', '\t', '\r', '\n']);
        let start = source.len() - rest.len();
        match matched(source, start, Rule::COMMENT) {
            Some(end) => offset = end,
            None => return start,
        }
    }
}

/// Where the text ends that a rule matches at an offset.
fn matched(source: &str, offset: usize, rule: Rule) -> Option<usize> {
    let mut pairs = PDLParser::parse(rule, &source[offset..]).ok()?;
    Some(offset + pairs.next()?.as_span().end())
}

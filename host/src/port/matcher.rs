//! The matchers of the rules.

use super::entries::pdl_match;
use crate::parser::Rule;

/// How much a rule takes at the front of a text, if it matches there.
///
/// The port knows a rule by its place in the printed grammar, which is its place in pest's enum.
pub fn extent(rule: Rule, text: &[u8]) -> Option<usize> {
    extent_of(rule as u64, text)
}

/// The same by the rule's number, which may be that of no rule.
pub fn extent_of(rule: u64, text: &[u8]) -> Option<usize> {
    // SAFETY: the entry reads the bytes of the slice, and no others.
    let extent = unsafe { pdl_match(rule, text.as_ptr(), text.len()) };
    extent.checked_sub(1)
}

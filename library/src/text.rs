//! The parts of the front end that take any text: the UTF-8 test, the converter, and the rules of the grammar.

use crate::entries;
use crate::refusal::{Refusal, RefusalKind};

/// How long the longest beginning of a text is that is UTF-8.
///
/// ```
/// assert_eq!(pdl_front::valid_prefix(b"ab\xff"), 2);
/// ```
pub fn valid_prefix(text: &[u8]) -> usize {
    entries::valid_prefix(text)
}

/// The number that a text says: in base 16 behind `0x`, otherwise in base 10, each with one `+` before its digits if there is one.
///
/// # Errors
///
/// [`NotConverted`](RefusalKind::NotConverted) with the place 0; [`Refusal::unconverted`] says why.
///
/// ```
/// use pdl_front::{convert, Unconverted};
///
/// assert_eq!(convert(b"0x1f"), Ok(31));
/// assert_eq!(convert(b"0X1f").unwrap_err().unconverted(), Some(Unconverted::BadDigit));
/// ```
pub fn convert(text: &[u8]) -> Result<u64, Refusal> {
    match entries::convert(text) {
        (0, value) => Ok(value),
        (reason, _) => Err(Refusal::new(RefusalKind::NotConverted.number(), 0, reason)),
    }
}

/// How many bytes a rule of the grammar takes at the front of a text, or nothing where it does not match there.
///
/// Rules have their numbers in the order in which the grammar is printed, from 1 on; 0 is the end of the input. `docs/ROWS.md` of the
/// repository has the list. No rule has a larger number than 59.
///
/// ```
/// const IDENTIFIER: u64 = 9;
/// assert_eq!(pdl_front::rule_extent(IDENTIFIER, b"head: 2"), Some(4));
/// assert_eq!(pdl_front::rule_extent(IDENTIFIER, b"_body_"), None);
/// ```
pub fn rule_extent(rule: u64, text: &[u8]) -> Option<usize> {
    entries::match_rule(rule, text).checked_sub(1)
}

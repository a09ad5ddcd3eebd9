//! The UTF-8 test, the converter, the text of a name, and the place of an offset.

use super::entries::{pdl_convert, pdl_location, pdl_name_text, pdl_valid_prefix};
use crate::ast::SourceLocation;

/// How long the longest beginning is that is UTF-8.
pub fn valid_prefix(text: &[u8]) -> usize {
    // SAFETY: the entry reads the bytes of the slice, and no others.
    unsafe { pdl_valid_prefix(text.as_ptr(), text.len()) }
}

/// The number that a text says, or the reason why it does not convert.
pub fn convert(text: &[u8]) -> Result<u64, u64> {
    let mut value = u64::MAX;
    // SAFETY: the entry reads the bytes of the slice and writes the value, and no more.
    let reason = unsafe { pdl_convert(text.as_ptr(), text.len(), &mut value) };
    match reason {
        0 => Ok(value),
        _ => {
            assert_eq!(value, 0, "a text that does not convert has no value");
            Err(reason)
        }
    }
}

/// Writes the text of a name over the front of lent bytes: the length of the text, or the number of
/// the refusal.
pub fn name_text(source: &[u8], offset: usize, len: usize, text: &mut [u8]) -> Result<usize, u64> {
    let mut count = usize::MAX;
    let (bytes, room) = (text.as_mut_ptr(), text.len());
    // SAFETY: the entry reads the bytes of the source, writes those of the text and the count, and
    // no more.
    let number = unsafe {
        pdl_name_text(source.as_ptr(), source.len(), offset, len, bytes, room, &mut count)
    };
    match number {
        0 => Ok(count),
        _ => {
            assert_eq!(count, 0, "a name outside its source has no text");
            Err(number)
        }
    }
}

/// The place of an offset among starts of lines.
pub fn location(offset: usize, starts: &[usize]) -> SourceLocation {
    // SAFETY: the entry reads the starts, and no more.
    let place = unsafe { pdl_location(offset, starts.as_ptr(), starts.len()) };
    SourceLocation { offset: place.offset, line: place.line, column: place.column }
}

//! The converter: `as_usize` of the Rust over any bytes, with 01's reasons.

use std::num::IntErrorKind;

const _: () = assert!(usize::BITS == 64, "01 takes the Rust with a 64-bit usize");

/// The reasons of refusal 4.
pub const EMPTY: u64 = 1;
pub const BAD_DIGIT: u64 = 2;
pub const TOO_LARGE: u64 = 3;

/// The number that a text says, or the reason why it does not convert.
pub fn convert(text: &[u8]) -> Result<u64, u64> {
    let (digits, radix) = match text.strip_prefix(b"0x") {
        Some(digits) => (digits, 16),
        None => (text, 10),
    };
    let Ok(digits) = std::str::from_utf8(digits) else {
        return Err(BAD_DIGIT);
    };
    usize::from_str_radix(digits, radix).map(|number| number as u64).map_err(|error| {
        match error.kind() {
            IntErrorKind::Empty => EMPTY,
            // The Rust stops at the overflow; 01 looks for a wrong byte in what is left.
            IntErrorKind::PosOverflow if all_digits(digits, radix) => TOO_LARGE,
            _ => BAD_DIGIT,
        }
    })
}

fn all_digits(text: &str, radix: u32) -> bool {
    let digits = text.strip_prefix('+').unwrap_or(text);
    digits.chars().all(|c| c.is_digit(radix))
}

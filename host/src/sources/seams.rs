//! Both sides of a seam: sources with any blanks at their end, and declarations without an
//! endianness line, with any blanks before them and behind them.

use super::rng::Rng;
use super::valid::{valid, without_header};

/// Blanks at an end. A line comment without a newline is closed by the one at the seam.
const ENDS: &[&str] = &[
    "", "\n", " ", "\t", "\r", "\r\n", "/**/", "/* a */ ", "/*\n\n*/", "/*//*/", "\n//", "\n// é",
    "\n//\r", "\n///*", "\n// packet A{}", "//\n", " \t\r\n\n",
];

/// Blanks at a beginning.
const FRONTS: &[&str] = &[
    "", "\n", " ", "\t", "\r", "\r\n", "/**/", "/* a */ ", "/*\n\n*/", "/*//*/", "//\n",
    "// é\r\n", "///*\n", "// packet A{}\n", " \t\r\n\n",
];

/// Texts that leave few rows or none, and are accepted behind an endianness line.
pub const SPARSE: &[&str] = &[
    "", " ", "\r", "\n", "//", "// a\r", "/**/", "/*\n*/\n//", "test T{\"\"}",
    "//\ntest T{\"//\",\"/*\"}//", "checksum C : 8 \"\"", "custom_field F\"\"",
];

/// A source whose end has blanks of every kind.
pub fn ended(rng: &mut Rng) -> String {
    valid(rng) + rng.pick(ENDS)
}

/// A few declarations without an endianness line, or none at all.
pub fn more(rng: &mut Rng) -> String {
    if rng.one_in(8) {
        return rng.pick(SPARSE).to_owned();
    }
    let count = rng.below(4);
    [rng.pick(FRONTS), &without_header(rng, count), rng.pick(ENDS)].concat()
}

//! Compares what the port makes of any text with the Rust: the UTF-8 test, the converter, the texts of
//! names, and the places of offsets.

mod names;
mod places;
mod texts;

use host::tally::{asked, Asked, Tally};
use std::process::ExitCode;

/// How many sources and lists are made, in hundreds, and the seed, unless the arguments say otherwise.
const USUAL: Asked = Asked { count: 800, seed: 21 };

fn main() -> ExitCode {
    let asked = match asked(USUAL) {
        Ok(asked) => asked,
        Err(usage) => return usage,
    };
    let mut tally = Tally::default();
    texts::check(asked, &mut tally);
    names::check(asked, &mut tally);
    places::check(asked, &mut tally);
    tally.verdict()
}

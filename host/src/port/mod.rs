//! The proved port, called through its `extern "C"` entries, as the library declares them. What it is
//! lent to answer in is filled before, so that a word which it does not write is seen.

mod aligner;
#[path = "../../../library/src/declared.rs"]
mod entries;
mod feeder;
mod matcher;
mod reader;
mod recorder;
mod texts;

use crate::reading::ENDIANNESS_WORDS;
pub use aligner::Aligner;
pub use entries::Aligner as State;
pub use feeder::{lay_out, Laid};
pub use matcher::{extent, extent_of};
pub use reader::{read, reading};
pub use recorder::Recorder;
pub use texts::{convert, location, name_text, valid_prefix};

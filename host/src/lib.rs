//! The oracle: the unchanged front end of google/pdl, asked what document 01 asks of the port.
//!
//! `answer` reads a source, `extents` matches single rules, `layout` feeds a declaration to the
//! aligner, `moving` says where rows go when more is added, `print` writes answers down, `sources`
//! makes inputs, `cases` holds those that were written by hand and `list` those whose answers are
//! kept. `port` is the proved port, which the comparisons hold against all this, and `tally` counts.

// The modules `ast`, `parser` and `alignment`, read from where they stand. They have to be at
// the root of this crate, for the parser says `crate::ast`.
include!(concat!(env!("OUT_DIR"), "/pdl.rs"));

pub mod aligner;
pub mod answer;
pub mod cases;
pub mod extents;
pub mod integer;
pub mod layout;
pub mod list;
pub mod moving;
#[cfg(feature = "port")]
pub mod port;
pub mod print;
pub mod reading;
pub mod sources;
pub mod tally;

mod check_ast;
mod nodes;
mod place;
mod quiet;
mod rows;

#![doc = include_str!("../README.md")]
#![deny(missing_docs, unsafe_code)]
#![forbid(unsafe_op_in_unsafe_fn)]

mod aligner;
mod comment;
mod constraint;
mod declaration;
#[allow(unsafe_code)]
mod entries;
mod field;
mod kinds;
mod layout;
mod place;
mod reading;
mod refusal;
mod row;
mod tag;
mod text;
pub mod words;

pub use aligner::{Aligner, MAX_CHUNK_WIDTH};
pub use comment::Comment;
pub use constraint::Constraint;
pub use declaration::Declaration;
pub use field::{Field, FieldDescription};
pub use kinds::{
    ChunkKind, CommentKind, ConstraintKind, DeclarationKind, Endianness, FieldKind, Table, TagKind,
};
pub use layout::{Chunk, Layout, Placed};
pub use place::{Place, Span};
pub use reading::{read, read_into, Counts, Reading, Tables};
pub use refusal::{Refusal, RefusalKind, Unconverted, MAX_SOURCE};
pub use row::Rows;
pub use tag::Tag;
pub use text::{convert, rule_extent, valid_prefix};

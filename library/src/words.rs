//! The words of a row by name, for those who read rows as they are.
//!
//! They are those of the port's crate `ast`, and a test holds the two together. What each word means for each kind is said in
//! `docs/ROWS.md` of the repository.

// Sizes of rows.

/// Words in a row of a declaration.
pub const DECLARATION_WORDS: usize = 17;

/// Words in a row of a field.
pub const FIELD_WORDS: usize = 20;

/// Words in a row of a tag.
pub const TAG_WORDS: usize = 12;

/// Words in a row of a constraint.
pub const CONSTRAINT_WORDS: usize = 12;

/// Words in a row of a comment.
pub const COMMENT_WORDS: usize = 7;

/// Words of the endianness with its place.
pub const ENDIANNESS_WORDS: usize = 7;

/// Words in a row of a placed field.
pub const PLACED_WORDS: usize = 3;

/// Words in a row of a chunk.
pub const CHUNK_WORDS: usize = 5;

// What all rows share.

/// The kind of a row.
pub const ROW_KIND: usize = 0;

/// The offset of a row's start.
pub const START_OFFSET: usize = 1;

/// The line of its start.
pub const START_LINE: usize = 2;

/// The column of its start.
pub const START_COLUMN: usize = 3;

/// The offset of its end.
pub const END_OFFSET: usize = 4;

/// The line of its end.
pub const END_LINE: usize = 5;

/// The column of its end.
pub const END_COLUMN: usize = 6;

// A declaration.

/// Where a declaration's name starts.
pub const DECLARATION_ID_OFFSET: usize = 7;

/// How long it is.
pub const DECLARATION_ID_LENGTH: usize = 8;

/// Where the parent's name or the function text starts; 0 if absent.
pub const DECLARATION_OTHER_OFFSET: usize = 9;

/// How long it is.
pub const DECLARATION_OTHER_LENGTH: usize = 10;

/// 1 if there is a width, else 0.
pub const DECLARATION_WIDTH_FLAG: usize = 11;

/// The width in bits.
pub const DECLARATION_WIDTH: usize = 12;

/// The first tag row of an enum, or the first field row of any other.
pub const DECLARATION_FIRST: usize = 13;

/// How many rows there are.
pub const DECLARATION_COUNT: usize = 14;

/// The first constraint row of the header.
pub const DECLARATION_FIRST_CONSTRAINT: usize = 15;

/// How many rows there are.
pub const DECLARATION_CONSTRAINT_COUNT: usize = 16;

// A field.

/// Where name a starts; 0 if absent.
pub const FIELD_A_OFFSET: usize = 7;

/// How long it is.
pub const FIELD_A_LENGTH: usize = 8;

/// Where name b starts; 0 if absent.
pub const FIELD_B_OFFSET: usize = 9;

/// How long it is.
pub const FIELD_B_LENGTH: usize = 10;

/// Where name c starts; 0 if absent.
pub const FIELD_C_OFFSET: usize = 11;

/// How long it is.
pub const FIELD_C_LENGTH: usize = 12;

/// 1 if there is a number a, else 0.
pub const FIELD_FLAG_A: usize = 13;

/// Number a.
pub const FIELD_NUMBER_A: usize = 14;

/// 1 if there is a number b, else 0.
pub const FIELD_FLAG_B: usize = 15;

/// Number b.
pub const FIELD_NUMBER_B: usize = 16;

/// The first constraint row of a group field.
pub const FIELD_FIRST_CONSTRAINT: usize = 17;

/// How many rows there are.
pub const FIELD_CONSTRAINT_COUNT: usize = 18;

/// The constraint row of the condition plus 1, or 0.
pub const FIELD_CONDITION: usize = 19;

// A tag.

/// Where a tag's name starts.
pub const TAG_ID_OFFSET: usize = 7;

/// How long it is.
pub const TAG_ID_LENGTH: usize = 8;

/// The value, or the start of the range.
pub const TAG_VALUE: usize = 9;

/// The end of the range, itself within it.
pub const TAG_RANGE_END: usize = 10;

/// How many rows of tags inside the range follow.
pub const TAG_INNER: usize = 11;

// A constraint.

/// Where the name of the constrained field starts.
pub const CONSTRAINT_ID_OFFSET: usize = 7;

/// How long it is.
pub const CONSTRAINT_ID_LENGTH: usize = 8;

/// Where the tag's name starts; 0 if absent.
pub const CONSTRAINT_TAG_OFFSET: usize = 9;

/// How long it is.
pub const CONSTRAINT_TAG_LENGTH: usize = 10;

/// The integer that is asked for.
pub const CONSTRAINT_VALUE: usize = 11;

// A placed field.

/// The symbol of a placed field.
pub const PLACED_SYMBOL: usize = 0;

/// Its width in bits.
pub const PLACED_WIDTH: usize = 1;

/// Its offset in its chunk, in bits from the lowest.
pub const PLACED_OFFSET: usize = 2;

// A chunk.

/// The kind of a chunk.
pub const CHUNK_KIND: usize = 0;

/// The first placed row of a chunk of bits.
pub const CHUNK_FIRST: usize = 1;

/// How many placed rows it has.
pub const CHUNK_COUNT: usize = 2;

/// The width in bits.
pub const CHUNK_WIDTH: usize = 3;

/// The symbol of bytes.
pub const CHUNK_SYMBOL: usize = 4;

/*
 * The front end of PDL, the packet description language: the C entries of the proved port, for C99 and C++.
 *
 * Link target/staticlib/libfront.a, which `setup/port` makes, on x86-64 Linux. docs/ROWS.md says what the words of a row mean,
 * kind by kind. A test holds this file against the port's sources.
 *
 * - A length counts elements, not bytes: a table of four rows of fields is 4 * PDL_FIELD_WORDS long. A table holds as many rows as
 *   fit whole; words that are left over are never touched.
 * - Each pointer must be valid for its length, and must not be NULL, also where the length is 0. What is written may overlap nothing
 *   else that is lent.
 * - Nothing needs to be checked first: a call ends for all bytes and all words. It calls nothing but memcpy, keeps no pointer and
 *   has no state of its own, so that any number of threads may call it at once.
 * - An entry that can refuse answers the number of the refusal, or 0. A refused call leaves tables and aligner as they were; what
 *   only carries an answer (refusal, counts, endianness, answer, count, value) is always written.
 */
#ifndef PDL_H
#define PDL_H

#include <stddef.h>
#include <stdint.h>

#ifdef __cplusplus
extern "C" {
#endif

/* The longest source that is read, in bytes, and the widest chunk of bits or bytes, in bits. */
enum { PDL_MAX_SOURCE = 1048576, PDL_MAX_CHUNK_WIDTH = 64 };

/* Words in a row of each table, of the endianness with its place, and of the aligner's two tables. */
enum {
    PDL_DECLARATION_WORDS = 17,
    PDL_FIELD_WORDS = 20,
    PDL_TAG_WORDS = 12,
    PDL_CONSTRAINT_WORDS = 12,
    PDL_COMMENT_WORDS = 7,
    PDL_ENDIANNESS_WORDS = 7,
    PDL_PLACED_WORDS = 3,
    PDL_CHUNK_WORDS = 5
};

/* The numbers of the tables, as the place of PDL_TOO_FEW_ROWS has them. */
enum {
    PDL_DECLARATIONS = 1,
    PDL_FIELDS = 2,
    PDL_TAGS = 3,
    PDL_CONSTRAINTS = 4,
    PDL_COMMENTS = 5
};

/* The numbers of the refusals. Where nothing else is said, the place of a layout's refusal is the row of a field; that of a single
 * call of the aligner is 0. */
enum {
    PDL_TOO_LONG = 1,              /* the source has more than PDL_MAX_SOURCE bytes */
    PDL_NOT_UTF8 = 2,              /* place: the length of the longest beginning that is UTF-8 */
    PDL_NO_MATCH = 3,              /* place: where the endianness line is missing, or neither a declaration nor the end follows */
    PDL_NOT_CONVERTED = 4,         /* place: the first byte of an integer; reason: see PDL_UNCONVERTED_EMPTY and on */
    PDL_TOO_FEW_ROWS = 5,          /* place: the number of a table; reason: how many rows it needs */
    PDL_NAME_OUTSIDE = 6,          /* a name lies outside its source */
    PDL_BYTES_WHILE_STAGED = 10,   /* bytes start while bits are staged that fill no whole byte */
    PDL_NOT_WHOLE_BYTES = 11,      /* a width of bytes is no multiple of 8 */
    PDL_TOO_WIDE = 12,             /* more than PDL_MAX_CHUNK_WIDTH bits would stand in one chunk */
    PDL_TABLE_FULL = 13,           /* a lent table of the aligner is full */
    PDL_WIDTH_NOT_IN_SYNTAX = 14,  /* a field's width is not in the syntax, for another declaration has it */
    PDL_NO_SUCH_DECLARATION = 15,  /* no packet, struct or group; place: the index that was asked for */
    PDL_END_WHILE_STAGED = 16,     /* the end while bits are staged; place: the first of these fields */
    PDL_DAMAGED_ROW = 17,          /* a row contradicts itself; place: the row of the field, or the declaration's index */
    PDL_CONTRADICTORY_STATE = 18   /* the state of the aligner contradicts itself */
};

/* Why an integer does not convert. */
enum {
    PDL_UNCONVERTED_EMPTY = 1,
    PDL_UNCONVERTED_BAD_DIGIT = 2,
    PDL_UNCONVERTED_TOO_LARGE = 3
};

/* The words that all rows share, and the endianness: the kind, then where it starts and ends. Lines and columns count from 0, all in
 * bytes; the end is behind the last byte. */
enum {
    PDL_ROW_KIND = 0,
    PDL_START_OFFSET = 1,
    PDL_START_LINE = 2,
    PDL_START_COLUMN = 3,
    PDL_END_OFFSET = 4,
    PDL_END_LINE = 5,
    PDL_END_COLUMN = 6
};

/* A declaration. A name is an offset and a length in the source; the offset of an absent one is 0. */
enum {
    PDL_DECLARATION_ID_OFFSET = 7,
    PDL_DECLARATION_ID_LENGTH = 8,
    PDL_DECLARATION_OTHER_OFFSET = 9, /* the parent, or the function text without its quotes */
    PDL_DECLARATION_OTHER_LENGTH = 10,
    PDL_DECLARATION_WIDTH_FLAG = 11, /* 1 if there is a width, else 0 */
    PDL_DECLARATION_WIDTH = 12,
    PDL_DECLARATION_FIRST = 13, /* the first tag row of an enum, or field row of any other */
    PDL_DECLARATION_COUNT = 14,
    PDL_DECLARATION_FIRST_CONSTRAINT = 15, /* the constraints of the header */
    PDL_DECLARATION_CONSTRAINT_COUNT = 16
};

/* A field. What its names and numbers are hangs on its kind. */
enum {
    PDL_FIELD_A_OFFSET = 7,
    PDL_FIELD_A_LENGTH = 8,
    PDL_FIELD_B_OFFSET = 9,
    PDL_FIELD_B_LENGTH = 10,
    PDL_FIELD_C_OFFSET = 11,
    PDL_FIELD_C_LENGTH = 12,
    PDL_FIELD_FLAG_A = 13,
    PDL_FIELD_NUMBER_A = 14,
    PDL_FIELD_FLAG_B = 15,
    PDL_FIELD_NUMBER_B = 16,
    PDL_FIELD_FIRST_CONSTRAINT = 17, /* what a group field asks */
    PDL_FIELD_CONSTRAINT_COUNT = 18,
    PDL_FIELD_CONDITION = 19 /* the constraint row of the condition plus 1, or 0 */
};

/* A tag. */
enum {
    PDL_TAG_ID_OFFSET = 7,
    PDL_TAG_ID_LENGTH = 8,
    PDL_TAG_VALUE = 9, /* the value, or the start of the range */
    PDL_TAG_RANGE_END = 10,
    PDL_TAG_INNER = 11 /* how many rows of tags inside the range follow at once */
};

/* A constraint. */
enum {
    PDL_CONSTRAINT_ID_OFFSET = 7,
    PDL_CONSTRAINT_ID_LENGTH = 8,
    PDL_CONSTRAINT_TAG_OFFSET = 9,
    PDL_CONSTRAINT_TAG_LENGTH = 10,
    PDL_CONSTRAINT_VALUE = 11
};

/* A placed bit field: the row of the field or what the aligner was told, its width and its offset in its chunk, in bits. */
enum {
    PDL_PLACED_SYMBOL = 0,
    PDL_PLACED_WIDTH = 1,
    PDL_PLACED_OFFSET = 2
};

/* A chunk. Bits have placed rows, bytes a symbol; the width is in bits. */
enum {
    PDL_CHUNK_KIND = 0,
    PDL_CHUNK_FIRST = 1,
    PDL_CHUNK_COUNT = 2,
    PDL_CHUNK_WIDTH = 3,
    PDL_CHUNK_SYMBOL = 4
};

/* The kinds of rows, and the endianness. */
enum { PDL_ENDIANNESS_LITTLE = 1, PDL_ENDIANNESS_BIG = 2 };

enum {
    PDL_DECLARATION_KIND_ENUM = 1,
    PDL_DECLARATION_KIND_PACKET = 2,
    PDL_DECLARATION_KIND_STRUCT = 3,
    PDL_DECLARATION_KIND_GROUP = 4,
    PDL_DECLARATION_KIND_CHECKSUM = 5,
    PDL_DECLARATION_KIND_CUSTOM_FIELD = 6
};

enum {
    PDL_FIELD_KIND_CHECKSUM = 1,
    PDL_FIELD_KIND_PADDING = 2,
    PDL_FIELD_KIND_SIZE = 3,
    PDL_FIELD_KIND_COUNT = 4,
    PDL_FIELD_KIND_ELEMENT_SIZE = 5,
    PDL_FIELD_KIND_BODY = 6,
    PDL_FIELD_KIND_PAYLOAD = 7,
    PDL_FIELD_KIND_FIXED_SCALAR = 8,
    PDL_FIELD_KIND_FIXED_ENUM = 9,
    PDL_FIELD_KIND_RESERVED = 10,
    PDL_FIELD_KIND_ARRAY = 11,
    PDL_FIELD_KIND_SCALAR = 12,
    PDL_FIELD_KIND_TYPEDEF = 13,
    PDL_FIELD_KIND_GROUP = 14
};

enum { PDL_TAG_KIND_VALUE = 1, PDL_TAG_KIND_RANGE = 2, PDL_TAG_KIND_OTHER = 3, PDL_TAG_KIND_INNER = 4 };

enum { PDL_CONSTRAINT_KIND_INTEGER = 1, PDL_CONSTRAINT_KIND_TAG = 2 };

enum { PDL_COMMENT_KIND_BLOCK = 1, PDL_COMMENT_KIND_LINE = 2 };

enum { PDL_CHUNK_KIND_BITS = 1, PDL_CHUNK_KIND_BYTES = 2, PDL_CHUNK_KIND_DYNAMIC = 3 };

/*
 * Reads the source s into five tables of rows. It answers the number of the refusal, or 0.
 * refusal: its place and its reason, both 0 where the source is accepted.
 * counts: how many rows each table got, in the order of the tables' numbers; all 0 where it is refused.
 * endianness: PDL_ENDIANNESS_LITTLE or PDL_ENDIANNESS_BIG with its place; all 0 where it is refused.
 * Where a table is too short, the refusal tells how many rows it needs: make it so long, and call again.
 */
uint64_t pdl_read(const uint8_t *s, size_t s_len,
                  uint64_t *declarations, size_t declarations_len,
                  uint64_t *fields, size_t fields_len,
                  uint64_t *tags, size_t tags_len,
                  uint64_t *constraints, size_t constraints_len,
                  uint64_t *comments, size_t comments_len,
                  uint64_t refusal[2], uint64_t counts[5], uint64_t endianness[PDL_ENDIANNESS_WORDS]);

/*
 * Lays out the fields of the packet, struct or group of declaration row index. It answers the number of the refusal, or 0. A symbol
 * is the row of a field. The lengths are those of the rows that were read, or more; rows may come from anywhere.
 * placed and chunks have room enough where each has as many rows as the declaration has fields.
 * answer: the place of the refusal, how many placed rows there are, and how many chunk rows.
 */
uint64_t pdl_layout(const uint64_t *declarations, size_t declarations_len,
                    const uint64_t *fields, size_t fields_len,
                    size_t index,
                    uint64_t *placed, size_t placed_len,
                    uint64_t *chunks, size_t chunks_len,
                    uint64_t answer[3]);

/* The state of an aligner: how many rows are placed, how many chunk rows there are, the first staged placed row, the staged width. All
 * 0 to begin with. */
typedef struct pdl_aligner {
    size_t placed;
    size_t chunks;
    size_t start;
    uint64_t width;
} pdl_aligner;

/* What the end of an alignment answers: the number of the refusal, or 0, and how many chunks there are, 0 where refused. */
typedef struct pdl_ended {
    uint64_t number;
    size_t chunks;
} pdl_ended;

/* A chunk as a record: the words of a chunk row. */
typedef struct pdl_chunk {
    uint64_t kind;
    uint64_t first;
    uint64_t count;
    uint64_t width;
    uint64_t symbol;
} pdl_chunk;

/*
 * The aligner call by call, each answering the number of the refusal, or 0.
 * A bit field is staged; where the staged bits fill whole bytes, they become a chunk. Bytes are a chunk each; a width is in bits.
 */
uint64_t pdl_add_bitfield(pdl_aligner *state,
                          uint64_t *placed, size_t placed_len,
                          uint64_t *chunks, size_t chunks_len,
                          uint64_t symbol, uint64_t width);

uint64_t pdl_add_bytes(pdl_aligner *state,
                       uint64_t *placed, size_t placed_len,
                       uint64_t *chunks, size_t chunks_len,
                       uint64_t symbol, uint64_t width);

uint64_t pdl_add_dyn_bytes(pdl_aligner *state,
                           uint64_t *placed, size_t placed_len,
                           uint64_t *chunks, size_t chunks_len,
                           uint64_t symbol);

/* Ends an alignment, which is refused while fields are staged. It changes nothing. */
pdl_ended pdl_align(pdl_aligner *state,
                    const uint64_t *placed, size_t placed_len,
                    const uint64_t *chunks, size_t chunks_len);

/* The same four over a table of chunk records. */
uint64_t pdl_add_bitfield_to(pdl_aligner *state,
                             uint64_t *placed, size_t placed_len,
                             pdl_chunk *chunks, size_t chunks_len,
                             uint64_t symbol, uint64_t width);

uint64_t pdl_add_bytes_to(pdl_aligner *state,
                          uint64_t *placed, size_t placed_len,
                          pdl_chunk *chunks, size_t chunks_len,
                          uint64_t symbol, uint64_t width);

uint64_t pdl_add_dyn_bytes_to(pdl_aligner *state,
                              uint64_t *placed, size_t placed_len,
                              pdl_chunk *chunks, size_t chunks_len,
                              uint64_t symbol);

pdl_ended pdl_align_to(pdl_aligner *state,
                       const uint64_t *placed, size_t placed_len,
                       const pdl_chunk *chunks, size_t chunks_len);

/* Matches a rule of the grammar at the front of s: how many bytes it takes, plus 1; 0 where it does not match, or where there is no
 * such rule. Rules have their numbers in the order in which the grammar is printed, from 1 to 59; 0 is the end of the input. */
size_t pdl_match(uint64_t rule, const uint8_t *s, size_t s_len);

/* How many bytes the longest beginning of s has that is UTF-8. */
size_t pdl_valid_prefix(const uint8_t *s, size_t s_len);

/* Converts a text to a number, in base 16 behind 0x and otherwise in base 10: the reason why it does not convert, or 0. value: the
 * number, 0 where it does not convert. */
uint64_t pdl_convert(const uint8_t *s, size_t s_len, uint64_t *value);

/* Writes the text of the name at offset over the front of text, as far as that has room: PDL_NAME_OUTSIDE, or 0. count: how many bytes
 * the text has, 0 where refused. Nothing else of text is touched. */
uint64_t pdl_name_text(const uint8_t *s, size_t s_len,
                       size_t offset, size_t len,
                       uint8_t *text, size_t text_len,
                       size_t *count);

/* A place in a source, from 0 and in bytes. */
typedef struct pdl_source_location {
    size_t offset;
    size_t line;
    size_t column;
} pdl_source_location;

/* The place of an offset among any starts of lines: its line is the last one before the first start that is above the offset, and the
 * first one where there is none. */
pdl_source_location pdl_location(size_t offset, const size_t *starts, size_t starts_len);

#ifdef __cplusplus
}
#endif

#endif

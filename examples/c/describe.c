/*
 * Describes a PDL source, the file that is named or else the standard input: each declaration with its fields and its layout.
 * Lines and columns count from 1, as editors have it. Exit status: 0 described, 1 refused, 2 anything else.
 *
 *     cc -Iinclude examples/c/describe.c target/staticlib/libfront.a -o describe && ./describe examples/scanner.pdl
 */
#include <inttypes.h>
#include <stdio.h>
#include <stdlib.h>

#include "pdl.h"

enum { TABLES = 5 };

static const size_t row_words[TABLES] = {PDL_DECLARATION_WORDS, PDL_FIELD_WORDS, PDL_TAG_WORDS, PDL_CONSTRAINT_WORDS,
                                         PDL_COMMENT_WORDS};
static const char *const declaration_kinds[] = {"", "enum", "packet", "struct", "group", "checksum", "custom_field"};
static const char *const field_kinds[] = {"", "checksum", "padding", "size", "count", "elementsize", "body", "payload", "fixed",
                                          "fixed enum", "reserved", "array", "scalar", "typedef", "group"};

/* One byte more than the port takes, so that it is the port that refuses a source that is too long. */
static uint8_t source[PDL_MAX_SOURCE + 1];
static size_t source_length;
static uint64_t *tables[TABLES];
static uint64_t refusal[2], counts[TABLES], endianness[PDL_ENDIANNESS_WORDS];

/* A table of so many words, at least one: no lent pointer may be NULL. */
static uint64_t *new_table(size_t words) {
    uint64_t *table = calloc(words > 0 ? words : 1, sizeof *table);
    if (table == NULL) exit(2);
    return table;
}

/* Reads the source. The tables grow as the port asks for it, so that it is called six times at most. */
static uint64_t read_source(void) {
    size_t words[TABLES] = {0};
    for (size_t i = 0; i < TABLES; i++) tables[i] = new_table(0);
    for (;;) {
        uint64_t number = pdl_read(source, source_length, tables[0], words[0], tables[1], words[1], tables[2], words[2],
                                   tables[3], words[3], tables[4], words[4], refusal, counts, endianness);
        if (number != PDL_TOO_FEW_ROWS) return number;
        size_t i = refusal[0] - 1;
        words[i] = refusal[1] * row_words[i];
        free(tables[i]);
        tables[i] = new_table(words[i]);
    }
}

static const uint64_t *field_row(uint64_t index) { return tables[PDL_FIELDS - 1] + index * PDL_FIELD_WORDS; }

static void print_place(const uint64_t *row) { printf("%" PRIu64 ":%" PRIu64, row[PDL_START_LINE] + 1, row[PDL_START_COLUMN] + 1); }

static void print_name(const uint64_t *row, size_t word) { printf(" %.*s", (int)row[word + 1], (const char *)source + row[word]); }

/* A field's kind, and its name if there is one. */
static void print_field(const uint64_t *field) {
    printf(" %s", field_kinds[field[PDL_ROW_KIND]]);
    if (field[PDL_FIELD_A_OFFSET] > 0) print_name(field, PDL_FIELD_A_OFFSET);
}

static void print_chunk(const uint64_t *chunk, const uint64_t *placed) {
    if (chunk[PDL_CHUNK_KIND] == PDL_CHUNK_KIND_DYNAMIC)
        printf("  bytes of unknown width:");
    else
        printf("  %" PRIu64 " bits:", chunk[PDL_CHUNK_WIDTH]);
    if (chunk[PDL_CHUNK_KIND] != PDL_CHUNK_KIND_BITS) print_field(field_row(chunk[PDL_CHUNK_SYMBOL]));
    for (size_t i = 0; i < chunk[PDL_CHUNK_COUNT]; i++) {
        const uint64_t *row = placed + (chunk[PDL_CHUNK_FIRST] + i) * PDL_PLACED_WORDS;
        if (i > 0) putchar(',');
        print_field(field_row(row[PDL_PLACED_SYMBOL]));
        printf(" at %" PRIu64, row[PDL_PLACED_OFFSET]);
    }
    putchar('\n');
}

/* Each field is placed once at most and ends one chunk at most, so that as many rows as there are fields are room enough. */
static void print_layout(size_t index, size_t fields) {
    uint64_t *placed = new_table(fields * PDL_PLACED_WORDS), *chunks = new_table(fields * PDL_CHUNK_WORDS), answer[3];
    uint64_t number = pdl_layout(tables[0], counts[0] * PDL_DECLARATION_WORDS, tables[1], counts[1] * PDL_FIELD_WORDS, index,
                                 placed, fields * PDL_PLACED_WORDS, chunks, fields * PDL_CHUNK_WORDS, answer);
    if (number > 0) {
        printf("  refused (%" PRIu64 ") at ", number);
        print_place(field_row(answer[0]));
        putchar('\n');
    }
    for (size_t i = 0; i < answer[2]; i++) print_chunk(chunks + i * PDL_CHUNK_WORDS, placed);
    free(placed);
    free(chunks);
}

static void print_declaration(size_t index) {
    const uint64_t *declaration = tables[PDL_DECLARATIONS - 1] + index * PDL_DECLARATION_WORDS;
    uint64_t kind = declaration[PDL_ROW_KIND];
    print_place(declaration);
    printf(" %s", declaration_kinds[kind]);
    print_name(declaration, PDL_DECLARATION_ID_OFFSET);
    putchar('\n');
    if (kind < PDL_DECLARATION_KIND_PACKET || kind > PDL_DECLARATION_KIND_GROUP) return;
    for (size_t i = 0; i < declaration[PDL_DECLARATION_COUNT]; i++) {
        const uint64_t *field = field_row(declaration[PDL_DECLARATION_FIRST] + i);
        printf("    ");
        print_place(field);
        print_field(field);
        putchar('\n');
    }
    print_layout(index, declaration[PDL_DECLARATION_COUNT]);
}

/* The line and the column of the refusal's place, which is an offset. */
static void print_refusal(uint64_t number) {
    size_t line = 1, column = 1;
    for (size_t i = 0; i < refusal[0] && i < source_length; i++) {
        column = source[i] == '\n' ? 1 : column + 1;
        line += source[i] == '\n';
    }
    fprintf(stderr, "refused (%" PRIu64 ") at %zu:%zu, reason %" PRIu64 "\n", number, line, column, refusal[1]);
}

int main(int count, char **arguments) {
    FILE *file = count > 1 ? fopen(arguments[1], "rb") : stdin;
    if (file == NULL || (source_length = fread(source, 1, sizeof source, file), ferror(file))) {
        perror(count > 1 ? arguments[1] : "standard input");
        return 2;
    }
    uint64_t number = read_source();
    if (number > 0) {
        print_refusal(number);
        return 1;
    }
    puts(endianness[PDL_ROW_KIND] == PDL_ENDIANNESS_LITTLE ? "little endian" : "big endian");
    for (size_t i = 0; i < counts[PDL_DECLARATIONS - 1]; i++) print_declaration(i);
    return 0;
}

//! What this package, the C header and docs/ROWS.md repeat of the port's sources is what stands there: the entries with their
//! parameters, the sizes of rows, the words by name, the numbers of tables and refusals.

mod sources;

use std::collections::{BTreeMap, BTreeSet};
use std::fmt::Debug;

use pdl_front::{
    ChunkKind, CommentKind, ConstraintKind, DeclarationKind, Endianness, FieldKind, RefusalKind,
    Table, TagKind, Unconverted, MAX_CHUNK_WIDTH, MAX_SOURCE,
};
use sources::{
    constants, entries, enumerators, fields, in_one_line, text_of, without_comments, Crossing,
    Entry, Parameter,
};

const NUMBERS: &str = "crates/ast/src/numbers.rt";
const WORDS: &str = "crates/ast/src/words.rt";

/// `TooFewRows` as `TOO_FEW_ROWS`.
fn upper(kind: impl Debug) -> String {
    let name = format!("{kind:?}");
    let parted = name.char_indices().map(|(at, c)| {
        if at > 0 && c.is_uppercase() {
            format!("_{c}")
        } else {
            c.to_string()
        }
    });
    parted.collect::<String>().to_uppercase()
}

/// The names and numbers of kinds, behind a prefix.
fn named<K: Debug + Copy>(prefix: &str, all: &[K], number: fn(K) -> u64) -> BTreeMap<String, u64> {
    all.iter().map(|kind| (prefix.to_owned() + &upper(kind), number(*kind))).collect()
}

/// Sizes of rows and positions of words, as the port has them.
fn sizes_and_positions() -> BTreeMap<String, u64> {
    let mut all = constants(&text_of(NUMBERS), "usize");
    all.extend(constants(&text_of(WORDS), "usize"));
    all
}

/// How a declaration of Rust says a parameter of the port.
fn in_rust(Parameter { name, mutable, crossing }: &Parameter) -> String {
    let (pointer, reference) = if *mutable { ("*mut", "&mut ") } else { ("*const", "&") };
    match crossing {
        Crossing::Value(kind) => format!("{name}: {kind}"),
        Crossing::Reference(kind) => format!("{name}: {reference}{kind}"),
        Crossing::Slice(element) => format!("{name}: {pointer} {element}, {name}_len: usize"),
        Crossing::Array(element, length) => format!("{name}: {reference}[{element}; {length}]"),
    }
}

/// A type of the port in C.
fn c_type(kind: &str) -> &'static str {
    match kind {
        "u8" => "uint8_t",
        "u64" => "uint64_t",
        "usize" => "size_t",
        "Aligner" => "pdl_aligner",
        "Ended" => "pdl_ended",
        "Chunk" => "pdl_chunk",
        "SourceLocation" => "pdl_source_location",
        _ => panic!("the header knows no type {kind}"),
    }
}

/// How a prototype of C says a parameter of the port.
fn in_c(Parameter { name, mutable, crossing }: &Parameter) -> String {
    let constant = if *mutable { "" } else { "const " };
    match crossing {
        Crossing::Value(kind) => format!("{} {name}", c_type(kind)),
        Crossing::Reference(kind) => format!("{constant}{} *{name}", c_type(kind)),
        Crossing::Slice(element) => {
            format!("{constant}{} *{name}, size_t {name}_len", c_type(element))
        }
        Crossing::Array(element, length) => {
            let prefix = if length.parse::<u64>().is_ok() { "" } else { "PDL_" };
            format!("{constant}{} {name}[{prefix}{length}]", c_type(element))
        }
    }
}

fn joined(entry: &Entry, said: fn(&Parameter) -> String) -> String {
    entry.parameters.iter().map(said).collect::<Vec<_>>().join(", ")
}

#[test]
fn the_port_has_entries() {
    assert_eq!(entries().len(), 15);
    assert!(entries()
        .iter()
        .all(|entry| entry.name.starts_with("pdl_") && !entry.parameters.is_empty()));
}

#[test]
fn the_declarations_are_those_of_the_port() {
    let code = text_of("library/src/declared.rs");
    let (_, block) = code.split_once("extern \"C\" {").expect("the entries are declared");
    let (block, _) = block.split_once("\n}\n").expect("the declarations end");
    let found: BTreeSet<_> = block.split("pub fn ").skip(1).map(in_one_line).collect();
    let declared = |it: &Entry| format!("{}({}) -> {};", it.name, joined(it, in_rust), it.answer);
    assert_eq!(found, entries().iter().map(declared).collect());
}

#[test]
fn the_prototypes_of_the_header_are_those_of_the_port() {
    let header = without_comments(&text_of("include/pdl.h"));
    let statements = header.split_inclusive(';').map(in_one_line);
    let found: BTreeSet<_> = statements.filter(|it| it.contains('(')).collect();
    let declared =
        |it: &Entry| format!("{} {}({});", c_type(&it.answer), it.name, joined(it, in_c));
    assert_eq!(found, entries().iter().map(declared).collect());
}

/// The structs that cross, and where the port has them.
const STRUCTS: [(&str, &str); 4] = [
    ("Aligner", "crates/meaning/src/lib.rt"),
    ("SourceLocation", "crates/meaning/src/lib.rt"),
    ("Ended", "crates/front/src/aligning.rt"),
    ("Chunk", "crates/byte_aligner/src/lib.rt"),
];

#[test]
fn the_structs_are_those_of_the_port() {
    let declared = text_of("library/src/declared.rs");
    let header = without_comments(&text_of("include/pdl.h"));
    for (name, file) in STRUCTS {
        let wanted = fields(&text_of(file), name);
        assert_eq!(fields(&declared, name), wanted, "{name}");
        let said = |(field, kind): &(String, String)| format!("{} {field};", c_type(kind));
        let members: Vec<_> = wanted.iter().map(said).collect();
        let name = c_type(name);
        let said = format!("typedef struct {name} {{ {} }} {name};", members.join(" "));
        assert!(in_one_line(&header).contains(&said), "the header does not say: {said}");
    }
}

#[test]
fn sizes_and_positions_are_those_of_the_port() {
    assert_eq!(constants(&text_of("library/src/words.rs"), "usize"), sizes_and_positions());
    let sizes = sizes_and_positions();
    for table in Table::ALL {
        let name = upper(table).trim_end_matches('S').to_owned() + "_WORDS";
        assert_eq!(table.row_words() as u64, sizes[&name]);
    }
}

#[test]
fn tables_and_refusals_have_the_numbers_of_the_port() {
    let mut known = named("", Table::ALL, Table::number);
    known.extend(named("", RefusalKind::ALL, RefusalKind::number));
    assert_eq!(known, constants(&text_of(NUMBERS), "u64"));
}

#[test]
fn the_header_has_every_number() {
    let mut wanted = sizes_and_positions();
    wanted.extend(constants(&text_of(NUMBERS), "u64"));
    wanted.insert("MAX_SOURCE".to_owned(), MAX_SOURCE as u64);
    wanted.insert("MAX_CHUNK_WIDTH".to_owned(), MAX_CHUNK_WIDTH);
    wanted.extend(named("UNCONVERTED_", Unconverted::ALL, Unconverted::number));
    wanted.extend(named("ENDIANNESS_", Endianness::ALL, Endianness::number));
    wanted.extend(named("DECLARATION_KIND_", DeclarationKind::ALL, DeclarationKind::number));
    wanted.extend(named("FIELD_KIND_", FieldKind::ALL, FieldKind::number));
    wanted.extend(named("TAG_KIND_", TagKind::ALL, TagKind::number));
    wanted.extend(named("CONSTRAINT_KIND_", ConstraintKind::ALL, ConstraintKind::number));
    wanted.extend(named("COMMENT_KIND_", CommentKind::ALL, CommentKind::number));
    wanted.extend(named("CHUNK_KIND_", ChunkKind::ALL, ChunkKind::number));
    let wanted: BTreeMap<_, _> =
        wanted.into_iter().map(|(name, number)| (format!("PDL_{name}"), number)).collect();
    assert_eq!(enumerators(&without_comments(&text_of("include/pdl.h"))), wanted);
}

/// The rows of the document's tables that begin with a number and a name: `| 13 | `FIELD_FLAG_A` |`.
fn rows_of_the_document() -> BTreeMap<String, u64> {
    let document = text_of("docs/ROWS.md");
    let cells = document.lines().filter_map(|line| {
        let mut cells = line.strip_prefix("| ")?.split(" | ");
        let number = cells.next()?.parse().ok()?;
        let name = cells.next()?.strip_prefix('`')?.strip_suffix('`')?;
        Some((name.to_owned(), number))
    });
    cells.collect()
}

#[test]
fn the_document_has_every_word_table_and_refusal() {
    let mut wanted = constants(&text_of(WORDS), "usize");
    wanted.extend(constants(&text_of(NUMBERS), "u64"));
    assert_eq!(rows_of_the_document(), wanted);
    let document = text_of("docs/ROWS.md");
    for (name, size) in constants(&text_of(NUMBERS), "usize") {
        let said = [format!("`{name}` | {size} |"), format!("`{name}`, {size}")];
        assert!(said.iter().any(|it| document.contains(it)), "{name} is not {size} there");
    }
    for entry in entries() {
        assert!(document.contains(&format!("`{}`", entry.name)), "{} is not there", entry.name);
    }
}

#[test]
fn the_document_has_the_rules_by_number() {
    let document = text_of("docs/ROWS.md");
    let listed = document.split("```").nth(1).expect("the rules stand in a block");
    let definition = text_of("crates/front/specs/Numbers.antt");
    let (_, printed) = definition.split_once("\nprinted =\n").expect("the rules are listed");
    let (printed, _) = printed.split_once("[]").expect("the list ends");
    let rules = printed
        .split('∷')
        .map(|rule| rule.trim().replace('-', "_"))
        .filter(|rule| !rule.is_empty());
    let wanted: Vec<_> =
        rules.enumerate().map(|(number, rule)| format!("{number} {rule}")).collect();
    assert_eq!(listed.split(',').map(str::trim).collect::<Vec<_>>(), wanted);
}

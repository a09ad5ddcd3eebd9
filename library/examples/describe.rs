//! Describes a PDL source, the file that is named or else the standard input: each declaration with its fields and its layout.
//! Lines and columns count from 1, as editors have it. Exit status: 0 described, 1 refused, 2 anything else.
//!
//!     cargo run --example describe -- ../examples/scanner.pdl

use std::io::{self, Read, Write};
use std::{env, fs, process};

use pdl_front::{
    Chunk, ChunkKind, Declaration, DeclarationKind, Endianness, Field, FieldKind, Place, Reading,
    Refusal, RefusalKind,
};

fn main() {
    let source = source().unwrap_or_else(|error| {
        eprintln!("the source cannot be read: {error}");
        process::exit(2)
    });
    let reading = pdl_front::read(&source).unwrap_or_else(|refusal| {
        eprintln!("{}", refused(&refusal, &source));
        process::exit(1)
    });
    let described = describe(&reading);
    if io::stdout().write_all(described.as_bytes()).is_err() {
        process::exit(2)
    }
}

fn source() -> io::Result<Vec<u8>> {
    match env::args_os().nth(1) {
        Some(path) => fs::read(path),
        None => {
            let mut source = vec![];
            io::stdin().read_to_end(&mut source)?;
            Ok(source)
        }
    }
}

fn refused(refusal: &Refusal, source: &[u8]) -> String {
    let place =
        refusal.location(source).map_or_else(String::new, |place| format!(" at {}", shown(place)));
    format!("refused ({}){place}, reason {}", refusal.number, refusal.reason)
}

fn describe(reading: &Reading) -> String {
    let endianness = match reading.endianness() {
        Endianness::Little => "little endian\n",
        Endianness::Big => "big endian\n",
    };
    let declarations = reading.declarations().map(|declaration| described(reading, &declaration));
    endianness.to_owned() + &declarations.collect::<String>()
}

fn described(reading: &Reading, declaration: &Declaration) -> String {
    let kind = match declaration.kind() {
        DeclarationKind::Enum => "enum",
        DeclarationKind::Packet => "packet",
        DeclarationKind::Struct => "struct",
        DeclarationKind::Group => "group",
        DeclarationKind::Checksum => "checksum",
        DeclarationKind::CustomField => "custom_field",
        _ => "other",
    };
    let mut lines = format!("{} {kind} {}\n", shown(declaration.span().start), declaration.id());
    for field in declaration.fields() {
        lines += &format!("    {} {}\n", shown(field.span().start), called(&field));
    }
    match declaration.layout() {
        Ok(layout) => lines.extend(layout.chunks().map(|chunk| laid_out(reading, &chunk))),
        // No packet, struct or group, and so without a layout.
        Err(refusal) if refusal.kind() == Some(RefusalKind::NoSuchDeclaration) => {}
        Err(refusal) => {
            let place = reading.field(refusal.place).map(|field| field.span().start);
            lines += &format!(
                "  refused ({}) at {}\n",
                refusal.number,
                shown(place.unwrap_or_default())
            );
        }
    }
    lines
}

fn laid_out(reading: &Reading, chunk: &Chunk) -> String {
    let named = |symbol: u64| {
        reading.field(symbol as usize).map_or_else(String::new, |field| called(&field))
    };
    let placed: Vec<_> = chunk
        .placed()
        .map(|placed| format!("{} at {}", named(placed.symbol), placed.offset))
        .collect();
    let width = match (chunk.kind(), chunk.width()) {
        (ChunkKind::Dynamic, _) | (_, None) => "bytes of unknown width".to_owned(),
        (_, Some(width)) => format!("{width} bits"),
    };
    format!("  {width}: {}\n", chunk.symbol().map_or_else(|| placed.join(", "), named))
}

/// A field's kind, and its name if there is one.
fn called(field: &Field) -> String {
    let kind = match field.kind() {
        FieldKind::FixedScalar => "fixed".to_owned(),
        FieldKind::FixedEnum => "fixed enum".to_owned(),
        kind => format!("{kind:?}").to_lowercase(),
    };
    field.name_a().map_or_else(|| kind.clone(), |name| format!("{kind} {name}"))
}

fn shown(place: Place) -> String {
    format!("{}:{}", place.line + 1, place.column + 1)
}

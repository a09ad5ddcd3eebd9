//! The layouts for a person: chunk by chunk, each field with its width, its offset in the chunk and its place in the whole.

use std::fmt::Write;

use pdl_front::{Chunk, ChunkKind, Declaration, Field, Layout, Placed, Reading, Refusal};

use crate::naming::{self, many};
use crate::page::Page;
use crate::places::Places;
use crate::reasons::Reasons;
use crate::selection::Selection;

/// The layouts that are asked for, with the name of the description.
pub fn shown(name: &str, reading: &Reading, only: &Selection) -> Page {
    let order = match naming::endianness(reading.endianness()) {
        "little" => "little endian: the first byte of a chunk has its lowest bits",
        _ => "big endian: the first byte of a chunk has its highest bits",
    };
    let mut page = Page { text: format!("{name}: {order}\n"), refused: false };
    let reasons = Reasons::new(reading, Places::new(reading.source().as_bytes()));
    let mut none = true;
    for (declaration, layout) in only.layouts(reading) {
        none = false;
        page.text.push('\n');
        let shown = match layout {
            Ok(layout) => laid_out(reading, &declaration, &layout),
            Err(refusal) => {
                page.refused = true;
                refused(&reasons, &declaration, &refusal)
            }
        };
        page.text.push_str(&shown);
    }
    if none {
        page.text.push_str("\nno packet, struct or group\n");
    }
    page
}

/// A declaration as the head of its layout.
fn head(it: &Declaration) -> String {
    let parent = it.parent().map_or_else(String::new, |parent| format!(" : {parent}"));
    format!(
        "{} {}{parent} (line {})",
        naming::declaration_kind(it.kind()),
        it.id(),
        it.span().start.line + 1
    )
}

fn refused(reasons: &Reasons, it: &Declaration, refusal: &Refusal) -> String {
    let mut shown = format!("{}: refused ({})\n", head(it), refusal.number);
    for line in reasons.of(it, refusal) {
        writeln!(shown, "  {line}").expect("a string takes all");
    }
    shown
}

/// The chunks of a layout, below a head that says how long they are together.
fn laid_out(reading: &Reading, it: &Declaration, layout: &Layout) -> String {
    let bits: u64 = layout.chunks().filter_map(|chunk| chunk.width()).sum();
    let dynamic = layout.chunks().any(|chunk| chunk.width().is_none());
    let (count, length) = (many(layout.chunks().len() as u64, "chunk"), many(bits, "bit"));
    let mut shown = format!(
        "{}: {count}, {length}{}\n",
        head(it),
        if dynamic { " and dynamic bytes" } else { "" }
    );
    if let Some(parent) = it.parent() {
        writeln!(shown, "  its own fields alone; bit 0 is the first of them, and not of {parent}")
            .expect("a string takes all");
    }
    let mut before = Some(0);
    for (number, chunk) in layout.chunks().enumerate() {
        put_chunk(&mut shown, reading, number, &chunk, before, bits.to_string().len());
        before = before.zip(chunk.width()).map(|(before, width)| before + width);
    }
    shown
}

/// Puts a chunk behind a text. So many bits stand before it, unless a dynamic part does.
fn put_chunk(
    shown: &mut String,
    reading: &Reading,
    number: usize,
    chunk: &Chunk,
    before: Option<u64>,
    digits: usize,
) {
    let behind = if before.is_some() { "" } else { ", behind dynamic bytes" };
    let what = match chunk.kind() {
        ChunkKind::Dynamic => {
            format!("dynamic bytes{behind}: {}", field(reading, chunk.symbol(), naming::written))
        }
        ChunkKind::Bytes => {
            format!(
                "{} of bytes{behind}: {}",
                many(chunk.width().unwrap_or(0), "bit"),
                field(reading, chunk.symbol(), naming::called)
            )
        }
        _ => format!("{}{behind}", many(chunk.width().unwrap_or(0), "bit")),
    };
    writeln!(shown, "  chunk {number}: {what}").expect("a string takes all");
    for placed in chunk.placed() {
        let bit = before.map_or_else(String::new, |before| {
            format!("  bit {:>digits$}", before + placed.offset)
        });
        let Placed { symbol, width, offset } = placed;
        let name = field(reading, Some(symbol), naming::called);
        writeln!(shown, "    offset {offset:>2}  width {width:>2}{bit}  {name}")
            .expect("a string takes all");
    }
}

/// What is said of the field in a row; nothing where there is none.
fn field<'r, 's, S: Default>(
    reading: &'r Reading<'s>,
    row: Option<u64>,
    said: fn(&Field<'r, 's>) -> S,
) -> S {
    let field = row.and_then(|row| reading.field(row as usize));
    field.map_or_else(S::default, |field| said(&field))
}

//! The rows and layouts as a JSON document, a row to a line. Places are counted as in the rows: from 0, and in bytes.

use pdl_front::words::{
    CONSTRAINT_ID_OFFSET, CONSTRAINT_TAG_OFFSET, DECLARATION_ID_OFFSET, DECLARATION_OTHER_OFFSET,
    TAG_ID_OFFSET,
};
use pdl_front::words::{DECLARATION_FIRST, DECLARATION_FIRST_CONSTRAINT, FIELD_FIRST_CONSTRAINT};
use pdl_front::words::{FIELD_A_OFFSET, FIELD_B_OFFSET, FIELD_C_OFFSET};
use pdl_front::{
    Chunk, Comment, Constraint, Declaration, DeclarationKind, Field, FieldKind, Layout, Tag,
    TagKind,
};
use pdl_front::{Place, Reading, Refusal, Span};
use serde_json::{json, Value};

use crate::naming;
use crate::page::Page;
use crate::selection::{owner, Selection};

/// The document of a refused reading.
pub fn refusal(source: &[u8], refusal: &Refusal) -> Page {
    let location = refusal.location(source).map(place);
    let document = json!({ "refusal": refused(refusal), "location": location });
    Page { text: format!("{document}\n"), refused: true }
}

fn refused(refusal: &Refusal) -> Value {
    let Refusal { number, place, reason, .. } = refusal;
    json!({ "number": number, "place": place, "reason": reason, "says": refusal.to_string() })
}

/// The document of a reading's tables.
pub fn tables(reading: &Reading, only: &Selection) -> Page {
    let asked = |span: Span| only.is_all() || only.has_row_of(&owner(reading, span.start.offset));
    let declarations = reading.declarations().filter(|it| only.has(it));
    let fields = reading.fields().filter(|it| asked(it.span()));
    let tags = reading.tags().filter(|it| asked(it.span()));
    let constraints = reading.constraints().filter(|it| asked(it.span()));
    let comments = reading.comments().filter(|it| asked(it.span()));
    let mut text = opened(reading);
    put(&mut text, "declarations", declarations.map(|it| declaration(reading, &it)));
    put(&mut text, "fields", fields.map(|it| field(reading, &it)));
    put(&mut text, "tags", tags.map(|it| tag(reading, &it)));
    put(&mut text, "constraints", constraints.map(|it| constraint(reading, &it)));
    put(&mut text, "comments", comments.map(|it| comment(&it)));
    Page { text: text + "}\n", refused: false }
}

/// The document of the layouts that are asked for.
pub fn layouts(reading: &Reading, only: &Selection) -> Page {
    let mut refused = false;
    let layouts = only.layouts(reading).map(|(declaration, outcome)| {
        refused |= outcome.is_err();
        layout(reading, &declaration, &outcome)
    });
    let mut text = opened(reading);
    put(&mut text, "layouts", layouts);
    Page { text: text + "}\n", refused }
}

/// The beginning of a document: its endianness.
fn opened(reading: &Reading) -> String {
    let order = naming::endianness(reading.endianness());
    let endianness = json!({ "kind": order, "place": span(reading.endianness_span()) });
    format!("{{\"endianness\":{endianness}")
}

/// Puts a list behind a document, a row to a line.
fn put(text: &mut String, name: &str, rows: impl Iterator<Item = Value>) {
    text.push_str(&format!(",\n\"{name}\":["));
    let mut before = "\n";
    for row in rows {
        text.push_str(before);
        text.push_str(&serde_json::to_string(&row).expect("a value can be written"));
        before = ",\n";
    }
    text.push(']');
}

fn place(place: Place) -> Value {
    let Place { offset, line, column } = place;
    json!({ "offset": offset, "line": line, "column": column })
}

fn span(span: Span) -> Value {
    json!({ "start": place(span.start), "end": place(span.end) })
}

/// The name whose offset is this word and whose length is the next.
fn name(reading: &Reading, words: &[u64], word: usize) -> Value {
    let (offset, length) = (words[word] as usize, words[word + 1] as usize);
    match reading.source().get(offset..offset + length) {
        Some(text) if offset > 0 => json!({ "text": text, "offset": offset, "length": length }),
        _ => Value::Null,
    }
}

/// Rows of another table: the first is this word, their count the next.
fn range(words: &[u64], word: usize) -> Value {
    json!({ "first": words[word], "count": words[word + 1] })
}

/// What every row has, and behind it what this kind has.
fn row(index: usize, kind: &str, place: Span, more: Value) -> Value {
    let mut object = json!({ "row": index, "kind": kind, "place": span(place) });
    if let (Value::Object(object), Value::Object(more)) = (&mut object, more) {
        object.extend(more);
    }
    object
}

fn declaration(reading: &Reading, it: &Declaration) -> Value {
    let words = it.words();
    let id = name(reading, words, DECLARATION_ID_OFFSET);
    let other = name(reading, words, DECLARATION_OTHER_OFFSET);
    let members = range(words, DECLARATION_FIRST);
    let more = match it.kind() {
        DeclarationKind::Enum => json!({ "id": id, "width": it.width(), "tags": members }),
        DeclarationKind::Packet | DeclarationKind::Struct => {
            let constraints = range(words, DECLARATION_FIRST_CONSTRAINT);
            json!({ "id": id, "parent": other, "constraints": constraints, "fields": members })
        }
        DeclarationKind::Group => json!({ "id": id, "fields": members }),
        _ => json!({ "id": id, "width": it.width(), "function": other }),
    };
    row(it.index(), naming::declaration_kind(it.kind()), it.span(), more)
}

fn field(reading: &Reading, it: &Field) -> Value {
    let [a, b, c] = [FIELD_A_OFFSET, FIELD_B_OFFSET, FIELD_C_OFFSET]
        .map(|word| name(reading, it.words(), word));
    let (number_a, number_b) = (it.number_a(), it.number_b());
    let more = match it.kind() {
        FieldKind::Checksum => json!({ "field_id": a }),
        FieldKind::Padding => json!({ "size": number_a }),
        FieldKind::Size | FieldKind::Count | FieldKind::ElementSize => {
            json!({ "field_id": a, "width": number_a })
        }
        FieldKind::Payload => json!({ "size_modifier": c }),
        FieldKind::FixedScalar => json!({ "width": number_a, "value": number_b }),
        FieldKind::FixedEnum => json!({ "enum_id": a, "tag_id": b }),
        FieldKind::Reserved => json!({ "width": number_a }),
        FieldKind::Array => {
            json!({ "id": a, "width": number_a, "type_id": b, "size_modifier": c, "size": number_b })
        }
        FieldKind::Scalar => json!({ "id": a, "width": number_a }),
        FieldKind::Typedef => json!({ "id": a, "type_id": b }),
        FieldKind::Group => {
            json!({ "group_id": a, "constraints": range(it.words(), FIELD_FIRST_CONSTRAINT) })
        }
        _ => json!({}),
    };
    let mut object = row(it.index(), naming::field_kind(it.kind()), it.span(), more);
    object["condition"] = json!(it.condition().map(|condition| condition.index()));
    object
}

fn tag(reading: &Reading, it: &Tag) -> Value {
    let id = name(reading, it.words(), TAG_ID_OFFSET);
    let more = match (it.kind(), it.range()) {
        (TagKind::Range, Some(range)) => {
            json!({ "id": id, "range": { "start": range.start(), "end": range.end() }, "inner": it.inner().len() })
        }
        (TagKind::Other, _) => json!({ "id": id }),
        _ => json!({ "id": id, "value": it.value() }),
    };
    row(it.index(), naming::tag_kind(it.kind()), it.span(), more)
}

fn constraint(reading: &Reading, it: &Constraint) -> Value {
    let id = name(reading, it.words(), CONSTRAINT_ID_OFFSET);
    let more = match it.value() {
        Some(value) => json!({ "id": id, "value": value }),
        None => json!({ "id": id, "tag_id": name(reading, it.words(), CONSTRAINT_TAG_OFFSET) }),
    };
    row(it.index(), naming::constraint_kind(it.kind()), it.span(), more)
}

fn comment(it: &Comment) -> Value {
    row(it.index(), naming::comment_kind(it.kind()), it.span(), json!({ "text": it.text() }))
}

/// A layout, or its refusal, of which the place is the row of a field.
fn layout(reading: &Reading, it: &Declaration, outcome: &Result<Layout, Refusal>) -> Value {
    let kind = naming::declaration_kind(it.kind());
    let mut object = json!({ "declaration": it.index(), "kind": kind, "id": it.id() });
    match outcome {
        Ok(layout) => object["chunks"] = chunks(reading, layout),
        Err(refusal) => object["refusal"] = refused(refusal),
    }
    object
}

fn chunks(reading: &Reading, layout: &Layout) -> Value {
    let mut before = Some(0);
    let mut objects = vec![];
    for chunk in layout.chunks() {
        objects.push(self::chunk(reading, &chunk, before));
        before = before.zip(chunk.width()).map(|(before, width)| before + width);
    }
    Value::Array(objects)
}

/// A chunk before which so many bits stand, unless a dynamic part does.
fn chunk(reading: &Reading, it: &Chunk, before: Option<u64>) -> Value {
    let called = |symbol: u64| reading.field(symbol as usize).map(|field| naming::called(&field));
    let kind = naming::chunk_kind(it.kind());
    match it.symbol() {
        Some(field) => {
            json!({ "kind": kind, "bit": before, "width": it.width(), "field": field, "name": called(field) })
        }
        None => {
            let placed = |placed: pdl_front::Placed| {
                let bit = before.map(|before| before + placed.offset);
                json!({ "field": placed.symbol, "name": called(placed.symbol), "width": placed.width, "offset": placed.offset, "bit": bit })
            };
            json!({ "kind": kind, "bit": before, "width": it.width(), "placed": it.placed().map(placed).collect::<Vec<_>>() })
        }
    }
}

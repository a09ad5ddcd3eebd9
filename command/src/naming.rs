//! What kinds, fields and constraints are called.

use std::borrow::Cow;
use std::fmt::{self, Display, Formatter};

use pdl_front::{
    ChunkKind, CommentKind, ConstraintKind, DeclarationKind, Endianness, FieldKind, TagKind,
};
use pdl_front::{Constraint, Field, FieldDescription};

/// What stands for a kind that this command does not know.
const UNKNOWN: &str = "unknown";

/// The byte order.
pub fn endianness(order: Endianness) -> &'static str {
    match order {
        Endianness::Little => "little",
        Endianness::Big => "big",
    }
}

/// The keyword of a declaration.
pub fn declaration_kind(kind: DeclarationKind) -> &'static str {
    match kind {
        DeclarationKind::Enum => "enum",
        DeclarationKind::Packet => "packet",
        DeclarationKind::Struct => "struct",
        DeclarationKind::Group => "group",
        DeclarationKind::Checksum => "checksum",
        DeclarationKind::CustomField => "custom_field",
        _ => UNKNOWN,
    }
}

/// The kind of a field.
pub fn field_kind(kind: FieldKind) -> &'static str {
    match kind {
        FieldKind::Checksum => "checksum_start",
        FieldKind::Padding => "padding",
        FieldKind::Size => "size",
        FieldKind::Count => "count",
        FieldKind::ElementSize => "element_size",
        FieldKind::Body => "body",
        FieldKind::Payload => "payload",
        FieldKind::FixedScalar => "fixed_scalar",
        FieldKind::FixedEnum => "fixed_enum",
        FieldKind::Reserved => "reserved",
        FieldKind::Array => "array",
        FieldKind::Scalar => "scalar",
        FieldKind::Typedef => "typedef",
        FieldKind::Group => "group",
        _ => UNKNOWN,
    }
}

/// The kind of a tag.
pub fn tag_kind(kind: TagKind) -> &'static str {
    match kind {
        TagKind::Value => "value",
        TagKind::Range => "range",
        TagKind::Other => "other",
        TagKind::Inner => "inner",
        _ => UNKNOWN,
    }
}

/// The kind of a constraint.
pub fn constraint_kind(kind: ConstraintKind) -> &'static str {
    match kind {
        ConstraintKind::Integer => "integer",
        ConstraintKind::Tag => "tag",
        _ => UNKNOWN,
    }
}

/// The kind of a comment.
pub fn comment_kind(kind: CommentKind) -> &'static str {
    match kind {
        CommentKind::Block => "block",
        CommentKind::Line => "line",
        _ => UNKNOWN,
    }
}

/// The kind of a chunk.
pub fn chunk_kind(kind: ChunkKind) -> &'static str {
    match kind {
        ChunkKind::Bits => "bits",
        ChunkKind::Bytes => "bytes",
        ChunkKind::Dynamic => "dynamic",
        _ => UNKNOWN,
    }
}

/// A kind in words.
pub fn in_words(kind: &str) -> Cow<'_, str> {
    match kind.contains('_') {
        true => Cow::Owned(kind.replace('_', " ")),
        false => Cow::Borrowed(kind),
    }
}

/// What a field is called: its name, or what stands for it.
pub fn called<'s>(field: &Field<'_, 's>) -> Cow<'s, str> {
    use FieldDescription::*;
    match field.description() {
        Checksum { field_id } => format!("_checksum_start_({field_id})").into(),
        Padding { .. } => "_padding_".into(),
        Size { field_id, .. } => format!("_size_({field_id})").into(),
        Count { field_id, .. } => format!("_count_({field_id})").into(),
        ElementSize { field_id, .. } => format!("_elementsize_({field_id})").into(),
        Body => "_body_".into(),
        Payload { .. } => "_payload_".into(),
        FixedScalar { .. } | FixedEnum { .. } => "_fixed_".into(),
        Reserved { .. } => "_reserved_".into(),
        Array { id, .. } | Scalar { id, .. } | Typedef { id, .. } => id.into(),
        Group { group_id } => group_id.into(),
        _ => UNKNOWN.into(),
    }
}

/// A field as it is written, in one line and without comments.
pub fn written(field: &Field) -> String {
    use FieldDescription::*;
    let name = called(field);
    let said = match field.description() {
        Padding { size } => format!("{name}[{size}]"),
        Size { width, .. }
        | Count { width, .. }
        | ElementSize { width, .. }
        | Reserved { width }
        | Scalar { width, .. } => {
            format!("{name}: {width}")
        }
        Payload { size_modifier: Some(modifier) } => format!("{name}: [{modifier}]"),
        FixedScalar { width, value } => format!("{name} = {value}: {width}"),
        FixedEnum { enum_id, tag_id } => format!("{name} = {tag_id}: {enum_id}"),
        Array { width, type_id, size_modifier, size, .. } => {
            let element = type_id.map_or_else(|| Number(width).to_string(), str::to_owned);
            format!("{name}: {element}[{}{}]", size_modifier.unwrap_or(""), Number(size))
        }
        Typedef { type_id, .. } => format!("{name}: {type_id}"),
        Group { .. } if field.constraints().len() > 0 => {
            format!("{name} {{ {} }}", constraints(field.constraints()))
        }
        _ => name.into_owned(),
    };
    match field.condition() {
        Some(condition) => format!("{said} if {}", constraint(&condition)),
        None => said,
    }
}

/// A constraint as it is written.
pub fn constraint(it: &Constraint) -> String {
    match it.tag() {
        Some(tag) => format!("{} = {tag}", it.id()),
        None => format!("{} = {}", it.id(), Number(it.value())),
    }
}

/// Constraints as they are written, one behind the other.
pub fn constraints<'r, 's: 'r>(rows: impl Iterator<Item = Constraint<'r, 's>>) -> String {
    rows.map(|it| constraint(&it)).collect::<Vec<_>>().join(", ")
}

/// A number, or nothing where there is none.
pub struct Number(pub Option<u64>);

impl Display for Number {
    fn fmt(&self, f: &mut Formatter) -> fmt::Result {
        self.0.map_or(Ok(()), |number| Display::fmt(&number, f))
    }
}

/// So many of something.
pub fn many(count: u64, what: &str) -> String {
    match count {
        0 => format!("no {what}s"),
        1 => format!("1 {what}"),
        _ => format!("{count} {what}s"),
    }
}

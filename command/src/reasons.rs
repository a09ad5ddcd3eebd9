//! Why a declaration cannot be laid out, in the words of those who write descriptions.

use std::collections::HashMap;

use pdl_front::{
    Declaration, Field, FieldDescription, Reading, Refusal, RefusalKind, MAX_CHUNK_WIDTH,
};

use crate::naming;
use crate::places::Places;

/// What the reasons are told from.
pub struct Reasons<'r, 's> {
    reading: &'r Reading<'s>,
    places: Places<'s>,
    /// The first declaration of each name.
    declared: HashMap<&'s str, Declaration<'r, 's>>,
}

/// What a field adds to a layout.
enum Part {
    Bits(u64),
    Dynamic,
    Nothing,
    /// Its width is in another declaration.
    Elsewhere,
}

impl<'r, 's> Reasons<'r, 's> {
    /// The reasons of the layouts of a reading.
    pub fn new(reading: &'r Reading<'s>, places: Places<'s>) -> Reasons<'r, 's> {
        let mut declared = HashMap::new();
        for declaration in reading.declarations() {
            declared.entry(declaration.id()).or_insert(declaration);
        }
        Reasons { reading, places, declared }
    }

    /// The lines that say why a declaration is refused, and what stands before the field at which it is.
    pub fn of(&self, it: &Declaration, refusal: &Refusal) -> Vec<String> {
        let field = match (refusal.kind(), self.reading.field(refusal.place)) {
            (Some(RefusalKind::NoSuchDeclaration), _) | (_, None) => {
                return vec!["only packets, structs and groups have a layout".to_owned()];
            }
            (_, Some(field)) => field,
        };
        let end = match refusal.kind() {
            Some(RefusalKind::EndWhileStaged) => usize::MAX,
            _ => field.index(),
        };
        let before: Vec<_> = it.fields().take_while(|other| other.index() < end).collect();
        let mut lines = vec![self.reason(refusal, &field, staged(&before))];
        lines.push(match (before.is_empty(), end) {
            (true, _) => "nothing stands before it".to_owned(),
            (_, usize::MAX) => "its fields:".to_owned(),
            _ => "before it:".to_owned(),
        });
        lines.extend(before.iter().filter_map(listed));
        lines
    }

    /// Why it is refused at this field, before which so many bits fill no whole byte.
    fn reason(&self, refusal: &Refusal, field: &Field, staged: u128) -> String {
        let it = format!(
            "the field `{}` ({})",
            naming::called(field),
            self.places.in_words(field.span().start)
        );
        match refusal.kind() {
            Some(RefusalKind::WidthNotInSyntax) => self.width_elsewhere(&it, field),
            Some(RefusalKind::BytesWhileStaged) if staged == 0 => {
                format!(
                    "{it} starts a chunk of bytes, and a field without bits is left over before it"
                )
            }
            Some(RefusalKind::BytesWhileStaged) => {
                format!("{it} starts with a whole byte, and {} left over before it", wide(staged))
            }
            Some(RefusalKind::TooWide) => {
                let width = staged + u128::from(field.number_a().unwrap_or(0));
                format!(
                    "with {it} a chunk would have {width} bits, and {MAX_CHUNK_WIDTH} is the most"
                )
            }
            Some(RefusalKind::EndWhileStaged) if staged == 0 => {
                format!("{it} has no bits, and no field behind it makes a chunk with it")
            }
            Some(RefusalKind::EndWhileStaged) => {
                format!("from {it} to the end {} left over, too few for a whole byte", wide(staged))
            }
            _ => format!("{it}: {refusal}"),
        }
    }

    fn width_elsewhere(&self, it: &str, field: &Field) -> String {
        let (said, name) = match field.description() {
            FieldDescription::Typedef { type_id, .. } => {
                (format!("{it} has the type `{type_id}`, whose width"), type_id)
            }
            FieldDescription::FixedEnum { enum_id, tag_id } => {
                (format!("{it} is the tag `{tag_id}` of `{enum_id}`, whose width"), enum_id)
            }
            FieldDescription::Group { group_id } => {
                (format!("{it} stands for a group, whose fields"), group_id)
            }
            _ => (format!("the width of {it}"), ""),
        };
        let gives = match self.declared.get(name) {
            Some(other) => {
                let kind = naming::declaration_kind(other.kind());
                format!(
                    "another declaration gives: {kind} {name}, line {}",
                    other.span().start.line + 1
                )
            }
            None => "no declaration of this description gives".to_owned(),
        };
        format!("{said} {gives}")
    }
}

/// What a field adds, as the port feeds it to the aligner.
fn part(field: &Field) -> Part {
    use FieldDescription::*;
    if field.condition().is_some() {
        return Part::Dynamic;
    }
    match field.description() {
        Size { width, .. } | Count { width, .. } | ElementSize { width, .. } => Part::Bits(width),
        FixedScalar { width, .. } | Reserved { width } | Scalar { width, .. } => Part::Bits(width),
        Body | Payload { .. } | Array { .. } => Part::Dynamic,
        Checksum { .. } | Padding { .. } => Part::Nothing,
        _ => Part::Elsewhere,
    }
}

/// How many bits stand behind the last whole chunk of these fields.
fn staged(fields: &[Field]) -> u128 {
    fields.iter().fold(0, |staged, field| match part(field) {
        Part::Bits(width) if (staged + u128::from(width)) % 8 == 0 => 0,
        Part::Bits(width) => staged + u128::from(width),
        _ => staged,
    })
}

/// The line of a field that stands before the refused one.
fn listed(field: &Field) -> Option<String> {
    let name = naming::called(field);
    match part(field) {
        Part::Bits(width) => Some(format!("  width {width:>2}  {name}")),
        Part::Dynamic => Some(format!("  dynamic   {}", naming::written(field))),
        Part::Nothing => Some(format!("  no bits   {}", naming::written(field))),
        Part::Elsewhere => None,
    }
}

/// So many bits as the subject of a sentence.
fn wide(bits: u128) -> String {
    match bits {
        1 => "1 bit is".to_owned(),
        _ => format!("{bits} bits are"),
    }
}

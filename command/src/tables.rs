//! The tables for a person: texts in place of offsets, and places as an editor counts them.

use std::borrow::Cow;
use std::fmt::{Display, Write};

use pdl_front::{Declaration, DeclarationKind, Field, FieldDescription, Reading, Span, Tag};

use crate::grid::Grid;
use crate::naming::{self, Number};
use crate::places::Places;
use crate::selection::{owner, Selection};
use crate::visible;

/// How many columns of a comment are shown.
const COMMENT_WIDTH: usize = 60;

/// What the tables are shown of.
struct Shown<'r, 's> {
    reading: &'r Reading<'s>,
    only: &'r Selection,
    places: Places<'s>,
}

/// The tables of a reading, with the name of its description.
pub fn shown(name: &str, reading: &Reading, only: &Selection) -> String {
    let places = Places::new(reading.source().as_bytes());
    let it = Shown { reading, only, places };
    let order = naming::endianness(reading.endianness());
    let line = reading.endianness_span().start.line + 1;
    let mut page = format!("{name}: {order} endian (line {line})\n");
    let tables = [
        ("Declarations", it.declarations()),
        ("Fields", it.fields()),
        ("Tags", it.tags()),
        ("Constraints", it.constraints()),
        ("Comments", it.comments()),
    ];
    for (title, grid) in tables {
        write!(page, "\n{title}\n").expect("a string takes all");
        grid.put(&mut page);
    }
    page
}

impl<'r, 's> Shown<'r, 's> {
    fn declarations(&self) -> Grid {
        let mut grid = Grid::new(&[
            ">row", "kind", "name", "parent or text", ">width", "members", "constraints", "place",
        ]);
        for it in self.reading.declarations().filter(|it| self.only.has(it)) {
            grid.add([
                &it.index(),
                &naming::declaration_kind(it.kind()),
                &it.id(),
                &parent_or_text(&it),
                &Number(it.width()),
                &members(&it),
                &naming::constraints(it.constraints()),
                &self.place(it.span()),
            ]);
        }
        grid
    }

    fn fields(&self) -> Grid {
        let heads = [
            ">row", "in", "kind", "name", "type", ">width", ">size or value", "constraints",
            "condition", "place",
        ];
        let mut grid = Grid::new(&heads);
        for (owner, it) in self.owned(self.reading.fields(), Field::span) {
            grid.add([
                &it.index(),
                &owner,
                &naming::in_words(naming::field_kind(it.kind())),
                &naming::called(&it),
                &field_type(&it),
                &field_width(&it),
                &size_or_value(&it),
                &naming::constraints(it.constraints()),
                &naming::constraints(it.condition().into_iter()),
                &self.place(it.span()),
            ]);
        }
        grid
    }

    fn tags(&self) -> Grid {
        let mut grid =
            Grid::new(&[">row", "in", "kind", "name", ">value", ">to", ">tags inside", "place"]);
        for (owner, it) in self.owned(self.reading.tags(), Tag::span) {
            let range = it.range();
            grid.add([
                &it.index(),
                &owner,
                &naming::tag_kind(it.kind()),
                &it.id(),
                &Number(it.value().or_else(|| range.as_ref().map(|range| *range.start()))),
                &Number(range.as_ref().map(|range| *range.end())),
                &Number(Some(it.inner().len() as u64).filter(|count| *count > 0)),
                &self.place(it.span()),
            ]);
        }
        grid
    }

    fn constraints(&self) -> Grid {
        let mut grid = Grid::new(&[">row", "in", "kind", "says", "place"]);
        for (owner, it) in self.owned(self.reading.constraints(), |it| it.span()) {
            let kind = naming::constraint_kind(it.kind());
            let place = self.place(it.span());
            grid.add([&it.index(), &owner, &kind, &naming::constraint(&it), &place]);
        }
        grid
    }

    fn comments(&self) -> Grid {
        let mut grid = Grid::new(&[">row", "in", "kind", "place", "says"]);
        for (owner, it) in self.owned(self.reading.comments(), |it| it.span()) {
            let kind = naming::comment_kind(it.kind());
            let says = visible::in_one_line(it.text(), COMMENT_WIDTH);
            grid.add([&it.index(), &owner, &kind, &self.place(it.span()), &says]);
        }
        grid
    }

    /// The rows that are asked for, each with the name of the declaration in which it stands.
    fn owned<'i, V: 'i>(
        &'i self,
        rows: impl Iterator<Item = V> + 'i,
        span: impl Fn(&V) -> Span + 'i,
    ) -> impl Iterator<Item = (&'s str, V)> + 'i {
        rows.filter_map(move |it| {
            let owner = owner(self.reading, span(&it).start.offset);
            let asked = self.only.has_row_of(&owner);
            asked.then(|| (owner.map_or("", |owner| owner.id()), it))
        })
    }

    fn place(&self, span: Span) -> impl Display {
        self.places.of_span(span)
    }
}

fn parent_or_text<'s>(it: &Declaration<'_, 's>) -> Cow<'s, str> {
    let quoted = |text| format!("\"{}\"", visible::text(text)).into();
    it.parent().map(Cow::from).or_else(|| it.function().map(quoted)).unwrap_or_default()
}

/// The rows of a declaration's members.
fn members(it: &Declaration) -> String {
    let (what, rows) = match it.kind() {
        DeclarationKind::Enum => {
            ("tag", (it.tags().next().map(|tag| tag.index()), it.tags().len()))
        }
        _ => ("field", (it.fields().next().map(|field| field.index()), it.fields().len())),
    };
    match rows {
        (None, _) => String::new(),
        (Some(first), 1) => format!("{what} {first}"),
        (Some(first), count) => format!("{what}s {first} to {}", first + count - 1),
    }
}

/// The type of a field, of its elements or of its tag.
fn field_type<'s>(it: &Field<'_, 's>) -> &'s str {
    match it.description() {
        FieldDescription::FixedEnum { enum_id, .. } => enum_id,
        FieldDescription::Array { type_id, .. } => type_id.unwrap_or(""),
        FieldDescription::Typedef { type_id, .. } => type_id,
        _ => "",
    }
}

/// The width of a field or of its elements. A padding has a size alone.
fn field_width(it: &Field) -> Number {
    match it.description() {
        FieldDescription::Padding { .. } => Number(None),
        _ => Number(it.number_a()),
    }
}

fn size_or_value<'s>(it: &Field<'_, 's>) -> Cow<'s, str> {
    match it.description() {
        FieldDescription::Padding { size } => size.to_string().into(),
        FieldDescription::FixedEnum { tag_id, .. } => tag_id.into(),
        FieldDescription::Payload { size_modifier } => size_modifier.unwrap_or("").into(),
        FieldDescription::Array { size_modifier: Some(modifier), .. } => modifier.into(),
        _ => Number(it.number_b()).to_string().into(),
    }
}

//! Holds every answer against the unchanged `parse_inline`: acceptance, the integer that does
//! not convert, and each word of each row. A difference is a panic that shows the source.

use crate::ast::{self, DeclDesc, FieldDesc, SourceLocation, SourceRange, Tag};
use crate::integer::convert;
use crate::parser::parse_inline;
use crate::reading::{
    Reading, Refusal, COMMENTS, CONSTRAINTS, DECLARATIONS, FIELDS, ROW_WORDS, TAGS,
};

/// Panics unless the Rust says of the source what `answer` says: a reading, 3 or 4.
pub fn check(source: &str, answer: &Result<Reading, Refusal>) {
    let mut database = ast::SourceDatabase::new();
    let agreed = match (parse_inline(&mut database, "source", source.to_owned()), answer) {
        (Ok(file), Ok(reading)) => {
            Check::new(source, reading).file(&file);
            true
        }
        (Err(error), Err(refusal)) => match unconverted(&error.message) {
            Some(integer) => {
                refusal.number == 4
                    && source[refusal.place as usize..].starts_with(integer)
                    && convert(integer.as_bytes()) == Err(refusal.reason)
            }
            None => refusal.number == 3 && error.message.starts_with("failed to parse"),
        },
        _ => false,
    };
    assert!(agreed, "the Rust does not say {answer:?} of {source:?}");
}

/// The integer that the Rust complains about.
fn unconverted(message: &str) -> Option<&str> {
    let text = message.strip_prefix("cannot convert '")?;
    text.strip_suffix("' to usize")
}

/// What one or two words of a row have to be.
enum Cell<'a> {
    Word(u64),
    Name(Option<&'a str>),
    Number(Option<usize>),
    /// The rows that a list has, from the next one of its table on.
    Rows(usize, usize),
}

use Cell::{Name, Number, Rows, Word};

struct Check<'a> {
    source: &'a str,
    reading: &'a Reading,
    /// The rows checked so far, for each table.
    checked: [usize; 5],
}

impl<'a> Check<'a> {
    fn new(source: &'a str, reading: &'a Reading) -> Self {
        Check { source, reading, checked: [0; 5] }
    }

    fn file(mut self, file: &ast::File) {
        let value = match file.endianness.value {
            ast::EndiannessValue::LittleEndian => 1,
            ast::EndiannessValue::BigEndian => 2,
        };
        let endianness = [&[value][..], &place(&file.endianness.loc)].concat();
        self.agree(&self.reading.endianness[..], &endianness, "the endianness");
        for comment in &file.comments {
            self.comment(comment);
        }
        for declaration in &file.declarations {
            self.declaration(declaration);
        }
        let counts = self.checked.map(|count| count as u64);
        self.agree(&self.reading.counts()[..], &counts, "the counts");
    }

    fn comment(&mut self, comment: &ast::Comment) {
        let SourceRange { start, end, .. } = comment.loc;
        let text = &self.source[start.offset..end.offset];
        self.agree(text, &comment.text, "a comment's text");
        let kind = if text.starts_with("/*") { 1 } else { 2 };
        self.row(COMMENTS, kind, &comment.loc, &[]);
    }

    fn declaration(&mut self, declaration: &ast::Decl) {
        let parent = declaration.parent_id();
        let fields = Rows(FIELDS, declaration.fields().len());
        let (kind, second, width, members) = match &declaration.desc {
            DeclDesc::Enum { width, tags, .. } => {
                let rows = tags.iter().map(|tag| 1 + inner(tag).len()).sum();
                (1, None, Some(*width), Rows(TAGS, rows))
            }
            DeclDesc::Packet { .. } => (2, parent, None, fields),
            DeclDesc::Struct { .. } => (3, parent, None, fields),
            DeclDesc::Group { .. } => (4, parent, None, fields),
            DeclDesc::Checksum { function, width, .. } => {
                (5, Some(function.as_str()), Some(*width), fields)
            }
            DeclDesc::CustomField { function, width, .. } => {
                (6, Some(function.as_str()), *width, fields)
            }
            DeclDesc::Test { .. } => unreachable!("the Rust keeps no test declaration"),
        };
        let constraints = Rows(CONSTRAINTS, declaration.constraints().len());
        let cells = [Name(declaration.id()), Name(second), Number(width), members, constraints];
        self.row(DECLARATIONS, kind, &declaration.loc, &cells);
        declaration.constraints().for_each(|c| self.constraint(c));
        declaration.fields().for_each(|field| self.field(field));
        if let DeclDesc::Enum { tags, .. } = &declaration.desc {
            tags.iter().for_each(|tag| self.tag(tag));
        }
    }

    fn tag(&mut self, tag: &Tag) {
        let (kind, start, end) = match tag {
            Tag::Value(tag) => (1, tag.value, 0),
            Tag::Range(tag) => (2, *tag.range.start(), *tag.range.end()),
            Tag::Other(_) => (3, 0, 0),
        };
        let numbers = [start, end, inner(tag).len()].map(|number| Word(number as u64));
        let cells: Vec<_> = [Name(Some(tag.id()))].into_iter().chain(numbers).collect();
        self.row(TAGS, kind, tag.loc(), &cells);
        for value in inner(tag) {
            let cells = [Name(Some(&value.id)), Word(value.value as u64), Word(0), Word(0)];
            self.row(TAGS, 4, &value.loc, &cells);
        }
    }

    fn constraint(&mut self, constraint: &ast::Constraint) {
        let kind = if constraint.value.is_some() { 1 } else { 2 };
        let cells = [
            Name(Some(&constraint.id)),
            Name(constraint.tag_id.as_deref()),
            Word(constraint.value.unwrap_or(0) as u64),
        ];
        self.row(CONSTRAINTS, kind, &constraint.loc, &cells);
    }

    fn field(&mut self, field: &ast::Field) {
        let (kind, [a, b, c], numbers) = described(&field.desc);
        let constraints = match &field.desc {
            FieldDesc::Group { constraints, .. } => &constraints[..],
            _ => &[],
        };
        let condition_row = self.checked[CONSTRAINTS] + constraints.len();
        let condition = field.cond.iter().map(|_| condition_row + 1).sum::<usize>();
        let cells = [
            Name(a),
            Name(b),
            Name(c),
            Number(numbers[0]),
            Number(numbers[1]),
            Rows(CONSTRAINTS, constraints.len()),
            Word(condition as u64),
        ];
        self.row(FIELDS, kind, &field.loc, &cells);
        let conditions = field.cond.iter();
        constraints.iter().chain(conditions).for_each(|c| self.constraint(c));
    }

    /// Checks the next row of a table, word by word.
    fn row(&mut self, table: usize, kind: u64, loc: &SourceRange, cells: &[Cell]) {
        let what = format!("row {} of table {}", self.checked[table], table + 1);
        let row = self.reading.rows(table).nth(self.checked[table]);
        let row = row.unwrap_or_else(|| panic!("{what} is missing in {:?}", self.source));
        self.agree(&row[..7], &[&[kind][..], &place(loc)].concat(), &what);
        let mut words = row[7..].iter().copied();
        let mut word = || words.next().expect("a row has the words of its cells");
        for cell in cells {
            match *cell {
                Word(expected) => self.agree(&word(), &expected, &what),
                Name(expected) => {
                    self.agree(&self.text([word(), word()], loc), &expected, &what);
                }
                Number(expected) => {
                    let expected = expected.map_or([0, 0], |number| [1, number as u64]);
                    self.agree(&[word(), word()], &expected, &what);
                }
                Rows(table, count) => {
                    let first = if count == 0 { 0 } else { self.checked[table] };
                    self.agree(&[word(), word()], &[first as u64, count as u64], &what);
                }
            }
        }
        assert!(words.next().is_none() && row.len() == ROW_WORDS[table]);
        self.checked[table] += 1;
    }

    /// The text of a name, which must stand inside the place of its row.
    fn text(&self, [offset, length]: [u64; 2], loc: &SourceRange) -> Option<&'a str> {
        if [offset, length] == [0, 0] {
            return None;
        }
        let range = offset as usize..(offset + length) as usize;
        let inside = loc.start.offset <= range.start && range.end <= loc.end.offset;
        assert!(inside, "a name outside its row in {:?}", self.source);
        Some(&self.source[range])
    }

    fn agree<T: PartialEq + std::fmt::Debug + ?Sized>(&self, ours: &T, rust: &T, what: &str) {
        assert!(ours == rust, "{what}: {ours:?} is {rust:?} in the Rust, for {:?}", self.source);
    }
}

/// The tags inside a range.
fn inner(tag: &Tag) -> &[ast::TagValue] {
    match tag {
        Tag::Range(range) => &range.tags,
        Tag::Value(_) | Tag::Other(_) => &[],
    }
}

/// Kind, names a, b, c and numbers a, b of a field.
fn described(desc: &FieldDesc) -> (u64, [Option<&str>; 3], [Option<usize>; 2]) {
    fn one(name: &str) -> [Option<&str>; 3] {
        [Some(name), None, None]
    }
    match desc {
        FieldDesc::Checksum { field_id } => (1, one(field_id), [None; 2]),
        FieldDesc::Padding { size } => (2, [None; 3], [Some(*size), None]),
        FieldDesc::Size { field_id, width } => (3, one(field_id), [Some(*width), None]),
        FieldDesc::Count { field_id, width } => (4, one(field_id), [Some(*width), None]),
        FieldDesc::ElementSize { field_id, width } => (5, one(field_id), [Some(*width), None]),
        FieldDesc::Body => (6, [None; 3], [None; 2]),
        FieldDesc::Payload { size_modifier } => {
            (7, [None, None, size_modifier.as_deref()], [None; 2])
        }
        FieldDesc::FixedScalar { width, value } => (8, [None; 3], [Some(*width), Some(*value)]),
        FieldDesc::FixedEnum { enum_id, tag_id } => {
            (9, [Some(enum_id), Some(tag_id), None], [None; 2])
        }
        FieldDesc::Reserved { width } => (10, [None; 3], [Some(*width), None]),
        FieldDesc::Array { id, width, type_id, size_modifier, size } => {
            let names = [Some(id.as_str()), type_id.as_deref(), size_modifier.as_deref()];
            (11, names, [*width, *size])
        }
        FieldDesc::Scalar { id, width } => (12, one(id), [Some(*width), None]),
        FieldDesc::Typedef { id, type_id } => (13, [Some(id), Some(type_id), None], [None; 2]),
        FieldDesc::Group { group_id, .. } => (14, one(group_id), [None; 2]),
        FieldDesc::Flag { .. } => unreachable!("the parser makes no flag"),
    }
}

fn place(loc: &SourceRange) -> [u64; 6] {
    let words = |at: SourceLocation| [at.offset, at.line, at.column].map(|word| word as u64);
    let [start, end] = [words(loc.start), words(loc.end)];
    [start[0], start[1], start[2], end[0], end[1], end[2]]
}

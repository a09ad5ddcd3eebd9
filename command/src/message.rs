//! The message of a refused description: the line, a mark at the place, and the reason in words.

use std::io;
use std::ops::Range;

use codespan_reporting::diagnostic::{Diagnostic, Label};
use codespan_reporting::files::{Error, Files};
use codespan_reporting::term::termcolor::WriteColor;
use codespan_reporting::term::{self, Chars, Config};
use pdl_front::{Place, Refusal, RefusalKind};

use crate::input::Description;
use crate::naming::many;
use crate::places::Places;
use crate::visible::{self, CUT};

/// How many bytes of a line are shown before the place, and from it on.
const BEFORE: usize = 60;
const BEHIND: usize = 60;

/// The part of a line around a place, with every character visible. It is all that the message shows of the source.
struct Excerpt {
    name: String,
    text: String,
    /// Where the place stands in the text.
    marked: Range<usize>,
    line: usize,
    column: usize,
}

impl<'a> Files<'a> for Excerpt {
    type FileId = ();
    type Name = &'a str;
    type Source = &'a str;

    fn name(&'a self, (): ()) -> Result<&'a str, Error> {
        Ok(&self.name)
    }

    fn source(&'a self, (): ()) -> Result<&'a str, Error> {
        Ok(&self.text)
    }

    fn line_index(&'a self, (): (), _: usize) -> Result<usize, Error> {
        Ok(0)
    }

    fn line_number(&'a self, (): (), _: usize) -> Result<usize, Error> {
        Ok(self.line)
    }

    fn column_number(&'a self, (): (), _: usize, _: usize) -> Result<usize, Error> {
        Ok(self.column)
    }

    fn line_range(&'a self, (): (), _: usize) -> Result<Range<usize>, Error> {
        Ok(0..self.text.len())
    }
}

/// Writes the message of a refused description.
///
/// # Errors
///
/// Those of the writer.
pub fn put(
    to: &mut dyn WriteColor,
    description: &Description,
    refusal: &Refusal,
) -> io::Result<()> {
    let said = refusal.to_string();
    let words = said.split_once(": ").map_or(said.as_str(), |(_, words)| words);
    let message = Diagnostic::error().with_code(refusal.number.to_string());
    let place = match (refusal.kind(), refusal.location(&description.bytes)) {
        (Some(RefusalKind::TooLong), _) | (_, None) => {
            let message = message.with_message(format!("{}: {words}", description.name));
            return emitted(to, &Excerpt::of(description, Place::default(), 0), &message);
        }
        (_, Some(place)) => place,
    };
    let excerpt = Excerpt::of(description, place, marked(&description.bytes, refusal));
    let (label, note) = hint(&description.bytes, refusal);
    let label = Label::primary((), excerpt.marked.clone()).with_message(label);
    let message =
        message.with_message(words).with_labels(vec![label]).with_notes(note.into_iter().collect());
    emitted(to, &excerpt, &message)
}

fn emitted(to: &mut dyn WriteColor, excerpt: &Excerpt, message: &Diagnostic<()>) -> io::Result<()> {
    let config = Config { chars: Chars::ascii(), ..Config::default() };
    term::emit(to, &config, excerpt, message).map_err(|error| match error {
        Error::Io(error) => error,
        other => io::Error::new(io::ErrorKind::Other, other),
    })
}

/// How many bytes the mark is wide: an integer is marked as a whole.
fn marked(source: &[u8], refusal: &Refusal) -> usize {
    let rest = &source[refusal.place.min(source.len())..];
    match refusal.kind() {
        Some(RefusalKind::NotConverted) => {
            rest.iter().take_while(|byte| byte.is_ascii_alphanumeric()).count()
        }
        _ => 1,
    }
}

/// What is said at the mark, and below.
fn hint(source: &[u8], refusal: &Refusal) -> (String, Option<String>) {
    match refusal.kind() {
        Some(RefusalKind::NotUtf8) => {
            let byte = source
                .get(refusal.place)
                .map_or_else(String::new, |byte| format!("the byte 0x{byte:02x}"));
            (byte, None)
        }
        // What stands before the place is a whole description, unless the endianness line is what is missing.
        Some(RefusalKind::NoMatch) => match pdl_front::read(&source[..refusal.place]) {
            Ok(before) => {
                let count = many(before.counts().declarations as u64, "declaration");
                (
                    "neither a whole declaration nor the end".to_owned(),
                    Some(format!("{count} before it can be read")),
                )
            }
            Err(_) => (
                "neither little_endian_packets nor big_endian_packets, with a blank behind it"
                    .to_owned(),
                None,
            ),
        },
        _ => (String::new(), None),
    }
}

impl Excerpt {
    /// The excerpt around a place at which so many bytes are marked.
    fn of(description: &Description, place: Place, marked: usize) -> Excerpt {
        let source = &description.bytes;
        let start = place.offset - place.column;
        let end = source[place.offset..]
            .iter()
            .position(|byte| *byte == b'\n')
            .map_or(source.len(), |rest| place.offset + rest);
        // The CR before an LF belongs to the end of the line, and not to what is said on it.
        let end = if end > place.offset && source[end - 1] == b'\r' { end - 1 } else { end };
        let first =
            boundary(source, start.max(place.offset.saturating_sub(BEFORE))).min(place.offset);
        let last = boundary(source, end.min(place.offset + BEHIND)).max(place.offset);
        let mark_end = end_of_mark(source, place.offset, marked, last);
        let mut text = if first > start { CUT.to_owned() } else { String::new() };
        text.push_str(&shown(&source[first..place.offset]));
        let from = text.len();
        text.push_str(&shown(&source[place.offset..mark_end]));
        let marked = from..text.len();
        text.push_str(&shown(&source[mark_end..last]));
        text.push_str(if last < end { CUT } else { "" });
        let column = Places::new(source).column(place);
        Excerpt { name: description.name.clone(), text, marked, line: place.line + 1, column }
    }
}

/// Bytes of a line, made visible but for the tabs, which the message widens.
fn shown(bytes: &[u8]) -> String {
    bytes.split(|byte| *byte == b'\t').map(visible::bytes).collect::<Vec<_>>().join("\t")
}

/// Where a mark of so many bytes ends: behind a whole character, and not behind what is shown.
fn end_of_mark(source: &[u8], start: usize, marked: usize, last: usize) -> usize {
    let character = source[start..last]
        .iter()
        .skip(marked)
        .take_while(|byte| (0x80..0xc0).contains(*byte))
        .count();
    let valid = std::str::from_utf8(&source[start..(start + marked + character).min(last)]).is_ok();
    (start + marked + if valid { character } else { 0 }).min(last)
}

/// The next offset from this one on where a character starts, as far as the bytes are UTF-8.
fn boundary(source: &[u8], offset: usize) -> usize {
    let continuing =
        source[offset..].iter().take_while(|byte| (0x80..0xc0).contains(*byte)).take(3).count();
    offset + continuing
}

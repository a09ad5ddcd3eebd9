//! Reads what the port's sources and the header declare: constants, and the entries with their parameters.

use std::collections::BTreeMap;
use std::fs;
use std::path::{Path, PathBuf};

/// A parameter of an entry, as the port declares it.
pub struct Parameter {
    pub name: String,
    pub mutable: bool,
    pub crossing: Crossing,
}

/// How a parameter crosses. Types are the port's: `u8`, `u64` and `usize`, and its structs.
pub enum Crossing {
    Value(String),
    Reference(String),
    Slice(String),
    Array(String, String),
}

/// An entry of the port.
pub struct Entry {
    pub name: String,
    pub parameters: Vec<Parameter>,
    pub answer: String,
}

/// A file or folder of the repository.
pub fn repository(path: &str) -> PathBuf {
    Path::new(env!("CARGO_MANIFEST_DIR")).join("..").join(path)
}

/// The text of a file of the repository.
pub fn text_of(path: &str) -> String {
    fs::read_to_string(repository(path)).unwrap_or_else(|error| panic!("{path}: {error}"))
}

/// The constants of a source, `pub const NAME: TYPE = VALUE;`, of one type.
pub fn constants(text: &str, wanted: &str) -> BTreeMap<String, u64> {
    let declared =
        text.lines().filter_map(|line| line.strip_prefix("pub const ")?.strip_suffix(';'));
    declared
        .filter_map(|constant| {
            let (name, rest) = constant.split_once(": ")?;
            let (kind, value) = rest.split_once(" = ")?;
            (kind == wanted)
                .then(|| (name.to_owned(), value.parse().expect("a constant is a number")))
        })
        .collect()
}

/// The fields of a struct that C may be lent, with their types.
pub fn fields(text: &str, name: &str) -> Vec<(String, String)> {
    let head = format!("\npub struct {name} {{\n");
    let (before, rest) = text.split_once(&head).unwrap_or_else(|| panic!("no struct {name}"));
    let mut attributes = before.lines().rev().take_while(|line| line.starts_with("#["));
    assert!(attributes.any(|line| line == "#[repr(C)]"), "the struct {name} is not for C");
    let (inside, _) = rest.split_once('}').expect("a struct ends");
    let field = |line: &str| {
        let (name, kind) = line.trim().strip_prefix("pub ")?.strip_suffix(',')?.split_once(": ")?;
        Some((name.to_owned(), kind.to_owned()))
    };
    inside.lines().filter_map(field).collect()
}

/// The constants of the header, `NAME = VALUE` in its enums.
pub fn enumerators(header: &str) -> BTreeMap<String, u64> {
    let parts = header.split([',', '{', '}']);
    parts
        .filter_map(|part| part.trim().split_once(" = "))
        .map(|(name, value)| (name.to_owned(), value.parse().expect("an enumerator is a number")))
        .collect()
}

/// A text with one space where there were blanks, and none behind an opening bracket or before a closing one.
pub fn in_one_line(text: &str) -> String {
    let words: Vec<_> = text.split_whitespace().collect();
    words.join(" ").replace("( ", "(").replace(", )", ")").replace(",)", ")")
}

/// A header without comments and without the lines of the preprocessor.
pub fn without_comments(header: &str) -> String {
    let mut parts = header.split("/*");
    let mut code = parts.next().unwrap_or("").to_owned();
    for part in parts {
        code += part.split_once("*/").expect("a comment is closed").1;
    }
    code.lines().filter(|line| !line.starts_with('#')).map(|line| format!("{line}\n")).collect()
}

/// The entries of the port's crate `front`.
pub fn entries() -> Vec<Entry> {
    let folder = fs::read_dir(repository("crates/front/src")).expect("the crate front is there");
    let mut found = vec![];
    for file in folder {
        let path = file.expect("the folder can be read").path();
        let text =
            fs::read_to_string(&path).unwrap_or_else(|error| panic!("{}: {error}", path.display()));
        found.extend(text.split("pub extern \"C\" fn ").skip(1).map(entry));
    }
    found
}

/// The entry whose name stands at the front of a text.
fn entry(text: &str) -> Entry {
    let (name, rest) = text.split_once('(').expect("an entry has parameters");
    let (parameters, rest) = rest.split_once(')').expect("the parameters end");
    let answer = rest.trim_start().strip_prefix("-> ").expect("an entry has an answer");
    Entry {
        name: name.to_owned(),
        parameters: parameters
            .split(',')
            .map(str::trim)
            .filter(|it| !it.is_empty())
            .map(parameter)
            .collect(),
        answer: answer.split_whitespace().next().expect("an answer has a type").to_owned(),
    }
}

fn parameter(text: &str) -> Parameter {
    let (name, kind) = text.split_once(": ").expect("a parameter has a type");
    let (mutable, lent) = match (kind.strip_prefix("&mut "), kind.strip_prefix('&')) {
        (Some(lent), _) => (true, Some(lent)),
        (None, lent) => (false, lent),
    };
    let crossing = match lent {
        Some(lent) => lent_as(lent),
        None => Crossing::Value(kind.to_owned()),
    };
    Parameter { name: name.to_owned(), mutable, crossing }
}

fn lent_as(kind: &str) -> Crossing {
    match kind.strip_prefix('[').and_then(|inside| inside.strip_suffix(']')) {
        Some(inside) => match inside.split_once("; ") {
            Some((element, length)) => {
                let length = length.rsplit("::").next().expect("a path has an end");
                Crossing::Array(element.to_owned(), length.to_owned())
            }
            None => Crossing::Slice(inside.to_owned()),
        },
        None => Crossing::Reference(kind.to_owned()),
    }
}

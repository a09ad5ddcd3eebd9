//! The fixed list of the oracle's answers: what stands in it, and how it is written.
//!
//! It is the standard input of the crate `replay_answers`, which replays it without Rust.

use std::path::PathBuf;

/// A source, and the lines that the program prints for it.
#[derive(Clone, Debug, PartialEq, Eq)]
pub struct Entry {
    pub source: Vec<u8>,
    pub lines: Vec<u8>,
}

/// Where the list stands.
pub fn path() -> PathBuf {
    PathBuf::from(env!("CARGO_MANIFEST_DIR")).join("../crates/replay_answers/stdin")
}

/// The entries as the list has them, and the line that counts them.
pub fn body(entries: &[Entry]) -> Vec<u8> {
    let mut body = vec![];
    for Entry { source, lines } in entries {
        let lengths = format!("S {} {}\n", source.len(), lines.len());
        body.extend([lengths.as_bytes(), source, b"\n", lines, b"\n"].concat());
    }
    body.extend(format!("Z {}\n", entries.len()).into_bytes());
    body
}

/// The entries of a list. Panics where it is not as it was written.
pub fn entries(list: &[u8]) -> Vec<Entry> {
    let mut rest = without_head(list);
    let mut entries = vec![];
    while rest.starts_with(b"S ") {
        let (lengths, behind) = split_line(rest);
        let lengths = std::str::from_utf8(&lengths[2..]).expect("lengths in digits");
        let (source, lines) = lengths.split_once(' ').expect("two lengths");
        let [source, lines] = [source, lines].map(|n| n.parse::<usize>().expect("a length"));
        let [source, lines] = [&behind[..source], &behind[source + 1..source + 1 + lines]];
        entries.push(Entry { source: source.to_vec(), lines: lines.to_vec() });
        rest = &behind[source.len() + 1 + lines.len() + 1..];
    }
    assert_eq!(body(&entries), without_head(list), "the list is not as it was written");
    entries
}

/// The list without the lines that start with `#`.
pub fn without_head(list: &[u8]) -> &[u8] {
    let mut rest = list;
    while rest.starts_with(b"#") {
        rest = split_line(rest).1;
    }
    rest
}

/// The first line without its LF, and what follows it.
fn split_line(text: &[u8]) -> (&[u8], &[u8]) {
    let end = text.iter().position(|byte| *byte == b'\n').expect("a line that ends");
    (&text[..end], &text[end + 1..])
}

//! The moving of rows, against answers that are decided and against the oracle's.

use host::answer::{read, Limits};
use host::moving::{appended, inserted, More, Old};
use host::print;
use host::reading::Reading;

/// A source, what is behind it, and the lines of the whole.
pub fn append([source, text, lines]: &[&str; 3]) {
    let old = old(source);
    let moved = appended(&old, &more(&old, text));
    agree(&[source, "\n", text].concat(), moved, lines);
}

/// A source up to a cut, what is put there, the source behind the cut, and the lines of the whole.
pub fn insert([before, text, behind, lines]: &[&str; 4]) {
    let before_cut = old(before);
    let old = old(&[*before, behind].concat());
    let moved = inserted(&old, &before_cut, &more(&old, text));
    agree(&[before, "\n", text, "\n", behind].concat(), moved, lines);
}

fn old(source: &str) -> Old {
    Old { source: source.to_owned(), reading: accepted(source) }
}

fn more(old: &Old, text: &str) -> More {
    let keyword_line = old.keyword_line();
    let reading = accepted(&[keyword_line, text].concat());
    More { keyword_line, text: text.to_owned(), reading }
}

fn accepted(source: &str) -> Reading {
    read(source.as_bytes(), Limits::PROGRAM.bytes).expect("an accepted source")
}

fn agree(whole: &str, moved: Reading, lines: &str) {
    assert_eq!(print::answer(&Ok(moved)), lines, "moved: {whole:?}");
    assert_eq!(print::answer(&Ok(accepted(whole))), lines, "read: {whole:?}");
}

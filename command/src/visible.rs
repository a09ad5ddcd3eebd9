//! Text of a source as it may be shown: what a terminal would obey or not show at all is made visible.

use std::fmt::Write;
use std::ops::RangeInclusive;
use std::str;

use unicode_width::UnicodeWidthChar;

/// Characters beside the controls that are not seen: those that Unicode calls ignorable by default, the separators of lines and
/// paragraphs, and the marks of annotations.
const UNSEEN: [RangeInclusive<char>; 18] = [
    '\u{ad}'..='\u{ad}',
    '\u{34f}'..='\u{34f}',
    '\u{61c}'..='\u{61c}',
    '\u{115f}'..='\u{1160}',
    '\u{17b4}'..='\u{17b5}',
    '\u{180b}'..='\u{180f}',
    '\u{200b}'..='\u{200f}',
    '\u{2028}'..='\u{202e}',
    '\u{2060}'..='\u{206f}',
    '\u{2800}'..='\u{2800}',
    '\u{3164}'..='\u{3164}',
    '\u{fe00}'..='\u{fe0f}',
    '\u{feff}'..='\u{feff}',
    '\u{ffa0}'..='\u{ffa0}',
    '\u{fff0}'..='\u{fffb}',
    '\u{1bca0}'..='\u{1bca3}',
    '\u{1d173}'..='\u{1d17a}',
    '\u{e0000}'..='\u{e0fff}',
];

/// Puts a character behind a text, made visible.
pub fn push(shown: &mut String, c: char) {
    match c {
        '\t' => shown.push_str("\\t"),
        '\n' => shown.push_str("\\n"),
        '\r' => shown.push_str("\\r"),
        _ if c.is_control() || UNSEEN.iter().any(|range| range.contains(&c)) => {
            write!(shown, "\\u{{{:x}}}", u32::from(c)).expect("a string takes all")
        }
        _ => shown.push(c),
    }
}

/// A text with every character visible.
pub fn text(text: &str) -> String {
    let mut shown = String::with_capacity(text.len());
    text.chars().for_each(|c| push(&mut shown, c));
    shown
}

/// Bytes with every character visible, and every byte that is not UTF-8 by its number.
pub fn bytes(bytes: &[u8]) -> String {
    let mut shown = String::with_capacity(bytes.len());
    let mut rest = bytes;
    while !rest.is_empty() {
        let valid = match str::from_utf8(rest) {
            Ok(whole) => whole,
            Err(error) => str::from_utf8(&rest[..error.valid_up_to()]).unwrap_or(""),
        };
        shown.push_str(&text(valid));
        rest = &rest[valid.len()..];
        if let Some((byte, behind)) = rest.split_first() {
            write!(shown, "\\x{byte:02x}").expect("a string takes all");
            rest = behind;
        }
    }
    shown
}

/// How many columns of a terminal a text takes whose characters are all visible.
pub fn width(text: &str) -> usize {
    match text.is_ascii() {
        true => text.len(),
        false => text.chars().map(|c| c.width().unwrap_or(0)).sum(),
    }
}

/// A text in one line, with one space where there were blanks, cut where it is wider than so many columns.
pub fn in_one_line(said: &str, widest: usize) -> String {
    let words: Vec<_> =
        said.split([' ', '\t', '\r', '\n']).filter(|word| !word.is_empty()).collect();
    let said = words.join(" ");
    let mut shown = String::new();
    let mut fitting = 0;
    for c in said.chars() {
        push(&mut shown, c);
        let taken = width(&shown);
        if taken + CUT.len() <= widest {
            fitting = shown.len();
        }
        if taken > widest {
            shown.truncate(fitting);
            return shown + CUT;
        }
    }
    shown
}

/// What stands behind a text that is cut.
pub const CUT: &str = "...";

#[cfg(test)]
mod tests {
    use super::*;

    #[test]
    fn controls_are_seen() {
        assert_eq!(
            text("a\u{1b}[31m\u{7f}\u{9b}\0\t\r\n"),
            "a\\u{1b}[31m\\u{7f}\\u{9b}\\u{0}\\t\\r\\n"
        );
    }

    #[test]
    fn what_is_not_seen_is_seen() {
        for c in [
            '\u{202e}', '\u{2066}', '\u{200b}', '\u{200f}', '\u{61c}', '\u{ad}', '\u{feff}',
            '\u{2028}', '\u{e0041}',
        ] {
            assert_eq!(text(&c.to_string()), format!("\\u{{{:x}}}", u32::from(c)));
        }
    }

    #[test]
    fn all_else_stays() {
        let said = "é 日本 \u{1f39e} e\u{301} \u{2010}";
        assert_eq!(text(said), said);
    }

    #[test]
    fn bytes_that_are_no_text() {
        assert_eq!(bytes(b"a\xff\xe2\x82b\xc3\xa9\x1b"), "a\\xff\\xe2\\x82bé\\u{1b}");
        assert_eq!(bytes(b""), "");
    }

    #[test]
    fn a_cut_splits_nothing() {
        assert_eq!(in_one_line(" a \t\r\n b ", 10), "a b");
        assert_eq!(in_one_line("日本日本日本", 12), "日本日本日本");
        assert_eq!(in_one_line("日本日本日本", 11), "日本日本...");
        assert_eq!(in_one_line("日本日本日本", 10), "日本日...");
        assert_eq!(in_one_line("abe\u{301}defg", 6), "abe\u{301}...");
        assert_eq!(in_one_line("ab\u{1b}cd", 9), "ab\\u{1b}c...".replace("\\u{1b}c", ""));
    }
}

//! Long sources: many declarations, and sources of an exact length.

use super::rng::Rng;
pub use super::valid::with_declarations as declarations;

const EXAMPLE: &str = include_str!("../../../examples/scanner.pdl");

const HEADER: &str = "little_endian_packets\n";

/// A source with a comment behind it that makes it so many bytes long.
///
/// It needs room for the comment's own marks and the line break before them.
pub fn padded(rng: &mut Rng, source: &str, bytes: usize) -> String {
    let inside = bytes - source.len() - "\n/**/".len();
    let letter = rng.pick(&["x", " ", "\n", "/", "\""]);
    format!("{source}\n/*{}*/", letter.repeat(inside))
}

/// A source of so many bytes: as many paragraphs of the example, over and over, as fit, and then blanks.
pub fn repeated(bytes: usize) -> String {
    let (_, body) = EXAMPLE.split_once(HEADER).expect("the example has an endianness line");
    let mut source = HEADER.to_owned();
    for paragraph in body.trim().split("\n\n").cycle() {
        if source.len() + "\n".len() + paragraph.len() + "\n".len() > bytes {
            break;
        }
        source.extend(["\n", paragraph, "\n"]);
    }
    let blanks = "\n".repeat(bytes - source.len());
    source + &blanks
}

/// The same declarations at the same places on a single line: a line comment becomes a block
/// comment, which takes the room of its last two letters.
pub fn on_one_line(source: &str) -> String {
    let lines = source.split('\n').map(|line| match line.find("//") {
        Some(at) => format!("{}/*{}*/", &line[..at], &line[at + 2..line.len() - 2]),
        None => line.to_owned(),
    });
    lines.collect::<Vec<_>>().join(" ")
}

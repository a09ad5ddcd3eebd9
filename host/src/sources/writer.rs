//! Writing the parts of a source with blanks wherever they may stand, and none elsewhere.

use super::rng::Rng;

/// How a source fills the places where a blank may stand.
#[derive(Clone, Copy)]
enum Spacing {
    /// Nothing, unless two names would run together.
    Tight,
    /// At most one whitespace character.
    Plain,
    /// Runs of whitespace and comments.
    Wild,
}

const WHITESPACE: &[&str] = &[" ", "\n", "\t", "\r"];

/// Pieces of comments and strings, with what is easily taken for something else.
const PIECES: &[&str] = &[
    "a", "0x", " ", "\t", "\r", "*", "**", "/", "//", "/*", "{", "}", "packet A {}", "if", ",",
    "é", "\u{20ac}", "\u{1f600}", "\u{0}", "\u{a0}",
];

const NAMES: &[&str] = &[
    "A", "x", "if", "enumx", "B", "packet", "ifx", "a_b", "Z9_", "test", "i", "body", "e0xf",
    "little_endian_packets", "y__", "X",
];

/// Integers that convert and are easily got wrong.
const EDGE_INTEGERS: &[&str] = &[
    "0",
    "00",
    "1",
    "007",
    "0x0",
    "0x00",
    "0xff",
    "0xFf",
    "0xffffffffffffffff",
    "0x0000000000000000000000000000001",
    "18446744073709551615",
    "0018446744073709551615",
    "9223372036854775808",
    "00000000000000000000000000000000000000008",
];

/// Integers that match but do not convert.
const BAD_INTEGERS: &[&str] = &[
    "0X10", "0X0", "0Xffffffffffffffffffff", "18446744073709551616", "0x10000000000000000",
    "99999999999999999999", "0018446744073709551616", "20000000000000000000000000000000",
];

pub struct Writer<'r> {
    pub rng: &'r mut Rng,
    text: String,
    spacing: Spacing,
    bad_integers: bool,
    after_name: bool,
}

impl Writer<'_> {
    pub fn new(rng: &mut Rng) -> Writer<'_> {
        let spacing = rng.pick(&[Spacing::Tight, Spacing::Plain, Spacing::Wild]);
        let bad_integers = rng.one_in(4);
        Writer { rng, text: String::new(), spacing, bad_integers, after_name: false }
    }

    /// The source, with a last run of blanks and perhaps a line comment that the end closes.
    pub fn finish(mut self) -> String {
        self.blanks(false);
        if self.rng.one_in(8) {
            self.line_comment();
        }
        self.text
    }

    /// The endianness line.
    pub fn header(&mut self) {
        let word = self.rng.pick(&["little_endian_packets", "big_endian_packets"]);
        self.keyword(word);
    }

    /// A word that has one whitespace character directly after it.
    pub fn keyword(&mut self, word: &str) {
        self.blanks(false);
        self.text += word;
        self.whitespace();
    }

    /// Parts of an ordinary rule, blanks before each.
    pub fn parts(&mut self, parts: &[&str]) {
        for part in parts {
            self.blanks(self.after_name && part.starts_with(char::is_alphanumeric));
            self.text += part;
            self.after_name = false;
        }
    }

    pub fn name(&mut self) {
        let name = self.rng.pick(NAMES);
        self.parts(&[name]);
        // Any other part may be followed by a letter at once: `8if`, `_body_ifx=1`.
        self.after_name = true;
    }

    pub fn integer(&mut self) {
        let integer = match self.rng.below(6) {
            0 if self.bad_integers => self.rng.pick(BAD_INTEGERS).to_string(),
            0 | 1 => self.rng.pick(EDGE_INTEGERS).to_string(),
            2 => format!("{:#x}", self.rng.word()),
            3 => self.rng.word().to_string(),
            _ => self.rng.below(100).to_string(),
        };
        self.parts(&[&integer]);
    }

    /// The width of a bit field, most often one that an aligner takes.
    pub fn width(&mut self) {
        match self.rng.below(10) {
            0 => self.integer(),
            1 | 2 => {
                let width = self.rng.below(65).to_string();
                self.parts(&[&width]);
            }
            _ => {
                let width = self.rng.pick(&["8", "16", "0x20", "64", "24", "4", "3", "5"]);
                self.parts(&[width]);
            }
        }
    }

    /// A size modifier, whose number is never converted.
    pub fn modifier(&mut self) {
        let modifier = self.rng.pick(&["+0", "+1", "+12", "+99999999999999999999"]);
        self.parts(&[modifier]);
    }

    pub fn string(&mut self) {
        let text = self.pieces() + self.rng.pick(&["", "\n", "\\"]);
        self.parts(&[&format!("\"{text}\"")]);
    }

    fn blanks(&mut self, needed: bool) {
        let count = match self.spacing {
            Spacing::Tight => 0,
            Spacing::Plain => self.rng.below(2),
            Spacing::Wild => self.rng.below(4),
        };
        for _ in 0..count.max(usize::from(needed)) {
            match self.spacing {
                Spacing::Wild if self.rng.one_in(4) => self.block_comment(),
                Spacing::Wild if self.rng.one_in(4) => {
                    self.line_comment();
                    self.text.push('\n');
                }
                _ => self.whitespace(),
            }
        }
    }

    fn whitespace(&mut self) {
        let blank = self.rng.pick(WHITESPACE);
        self.text += blank;
    }

    fn block_comment(&mut self) {
        let text = self.pieces() + self.rng.pick(&["", "\"", "\n", "*"]);
        self.text += &format!("/*{}*/", text.replace("*/", "* "));
    }

    fn line_comment(&mut self) {
        let text = self.pieces();
        self.text += &format!("//{text}");
    }

    fn pieces(&mut self) -> String {
        (0..self.rng.below(5)).map(|_| self.rng.pick(PIECES)).collect()
    }
}

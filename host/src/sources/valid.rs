//! Sources that the grammar matches, of every construct. A few have integers that do not convert.

use super::rng::Rng;
use super::writer::Writer;

/// A source of a few declarations.
pub fn valid(rng: &mut Rng) -> String {
    let count = rng.below(5);
    with_declarations(rng, count)
}

/// A source of so many declarations.
pub fn with_declarations(rng: &mut Rng, count: usize) -> String {
    let mut writer = Writer::new(rng);
    writer.header();
    writer.declarations(count)
}

/// So many declarations without an endianness line.
pub fn without_header(rng: &mut Rng, count: usize) -> String {
    Writer::new(rng).declarations(count)
}

impl Writer<'_> {
    /// Writes so many declarations and ends the source.
    fn declarations(mut self, count: usize) -> String {
        for _ in 0..count {
            self.declaration();
        }
        self.finish()
    }

    fn declaration(&mut self) {
        match self.rng.below(8) {
            0 => self.enumeration(),
            1 | 2 => self.packet("packet"),
            3 => self.packet("struct"),
            4 => {
                self.opening("group");
                self.parts(&["{"]);
                self.list(1, true, Self::field);
                self.parts(&["}"]);
            }
            5 => {
                self.opening("checksum");
                self.parts(&[":"]);
                self.integer();
                self.string();
            }
            6 => {
                self.opening("custom_field");
                if self.rng.one_in(2) {
                    self.parts(&[":"]);
                    self.integer();
                }
                self.string();
            }
            _ => {
                self.opening("test");
                self.parts(&["{"]);
                self.list(1, true, Self::string);
                self.parts(&["}"]);
            }
        }
    }

    fn opening(&mut self, keyword: &str) {
        self.keyword(keyword);
        self.name();
    }

    fn packet(&mut self, keyword: &str) {
        self.opening(keyword);
        if self.rng.one_in(3) {
            self.parts(&[":"]);
            self.name();
        }
        if self.rng.one_in(3) {
            self.parts(&["("]);
            self.list(1, false, Self::constraint);
            self.parts(&[")"]);
        }
        self.parts(&["{"]);
        self.list(0, true, Self::field);
        self.parts(&["}"]);
    }

    fn enumeration(&mut self) {
        self.opening("enum");
        self.parts(&[":"]);
        self.integer();
        self.parts(&["{"]);
        self.list(1, true, Self::tag);
        self.parts(&["}"]);
    }

    /// Members parted by commas, at least so many, with a last comma where one may stand.
    fn list(&mut self, least: usize, last_comma: bool, member: fn(&mut Self)) {
        let count = least + self.rng.below(4);
        for index in 0..count {
            member(self);
            if index + 1 < count || (last_comma && self.rng.one_in(3)) {
                self.parts(&[","]);
            }
        }
    }

    fn tag(&mut self) {
        match self.rng.below(4) {
            0 => {
                self.name();
                self.parts(&["=", ".."]);
            }
            1 => {
                self.name();
                self.parts(&["="]);
                self.integer();
                self.parts(&[".."]);
                self.integer();
                if self.rng.one_in(2) {
                    self.parts(&["{"]);
                    self.list(1, true, Self::value);
                    self.parts(&["}"]);
                }
            }
            _ => self.value(),
        }
    }

    fn value(&mut self) {
        self.name();
        self.parts(&["="]);
        self.integer();
    }

    fn constraint(&mut self) {
        self.name();
        self.parts(&["="]);
        self.name_or(Self::integer);
    }

    fn name_or(&mut self, other: fn(&mut Self)) {
        if self.rng.one_in(2) {
            self.name();
        } else {
            other(self);
        }
    }

    fn field(&mut self) {
        match self.rng.below(16) {
            0..=5 => self.special_field(),
            6 => self.sized_field("_count_", Self::name),
            7 => self.sized_field("_elementsize_", Self::name),
            8 => self.fixed_field(),
            9 => self.array_field(),
            10..=13 => self.named_field(Self::width),
            14 => self.named_field(Self::name),
            _ => self.group_field(),
        }
        if self.rng.one_in(5) {
            self.parts(&["if"]);
            self.constraint();
        }
    }

    fn special_field(&mut self) {
        match self.rng.below(6) {
            0 => {
                self.parts(&["_checksum_start_", "("]);
                self.name();
                self.parts(&[")"]);
            }
            1 => {
                self.parts(&["_padding_", "["]);
                self.integer();
                self.parts(&["]"]);
            }
            2 => self.sized_field("_size_", |writer| match writer.rng.below(3) {
                0 => writer.parts(&["_payload_"]),
                1 => writer.parts(&["_body_"]),
                _ => writer.name(),
            }),
            3 => self.parts(&["_body_"]),
            4 => {
                self.parts(&["_payload_"]);
                if self.rng.one_in(2) {
                    self.parts(&[":", "["]);
                    self.modifier();
                    self.parts(&["]"]);
                }
            }
            _ => {
                self.parts(&["_reserved_", ":"]);
                self.width();
            }
        }
    }

    fn sized_field(&mut self, literal: &str, of: fn(&mut Self)) {
        self.parts(&[literal, "("]);
        of(self);
        self.parts(&[")", ":"]);
        self.width();
    }

    fn fixed_field(&mut self) {
        self.parts(&["_fixed_", "="]);
        if self.rng.one_in(2) {
            self.name();
            self.parts(&[":"]);
            self.name();
        } else {
            self.integer();
            self.parts(&[":"]);
            self.width();
        }
    }

    fn named_field(&mut self, of: fn(&mut Self)) {
        self.name();
        self.parts(&[":"]);
        of(self);
    }

    fn array_field(&mut self) {
        self.name();
        self.parts(&[":"]);
        self.name_or(Self::width);
        self.parts(&["["]);
        match self.rng.below(3) {
            0 => self.modifier(),
            1 => self.integer(),
            _ => {}
        }
        self.parts(&["]"]);
    }

    fn group_field(&mut self) {
        self.name();
        if self.rng.one_in(2) {
            self.parts(&["{"]);
            self.list(0, false, Self::constraint);
            self.parts(&["}"]);
        }
    }
}

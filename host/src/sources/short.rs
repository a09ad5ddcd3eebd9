//! Every short text over a small alphabet, inside a frame that makes it a source.

/// A frame, the alphabet of the texts in it, and how many letters they have at most.
pub struct Frame {
    pub name: &'static str,
    before: &'static str,
    after: &'static str,
    letters: &'static [&'static str],
    longest: u32,
}

/// Where short texts are tried.
pub const FRAMES: &[Frame] = &[
    Frame {
        name: "bare",
        before: "",
        after: "",
        letters: &["little_endian_packets", "big_endian_packets", "\n", " ", "/", "*", "a"],
        longest: 6,
    },
    Frame {
        name: "declaration",
        before: "big_endian_packets\n",
        after: "",
        letters: &["test A{", "custom_field ", "B", ":", "8", "\"", "\"\"", ",", "}", "/*"],
        longest: 5,
    },
    Frame {
        name: "packet",
        before: "little_endian_packets\npacket A",
        after: "{}",
        letters: &["a", "(", ")", ":", "=", ",", "1", " ", "//", "\n"],
        longest: 5,
    },
    Frame {
        name: "field",
        before: "little_endian_packets\npacket A{",
        after: "}",
        letters: &["a", ":", "8", "[", "]", "+", ",", "{", "}", "=", " ", "if"],
        longest: 5,
    },
    Frame {
        name: "special field",
        before: "little_endian_packets\ngroup A{",
        after: "}",
        letters: &["_payload_", "_body_", "_size_(", "):", ":[", "+", "1", "]", ",", "if a=1"],
        longest: 5,
    },
    Frame {
        name: "tag",
        before: "big_endian_packets\nenum A:8{",
        after: "}",
        letters: &["a", "=", "1", ".", "{", "}", ",", "0x", "X", " ", "/*/"],
        longest: 5,
    },
];

impl Frame {
    /// The sources of this frame, the shortest texts first.
    pub fn sources(&self) -> impl Iterator<Item = String> + '_ {
        self.sources_up_to(self.longest)
    }

    /// The same with texts of so many letters at most.
    pub fn sources_up_to(&self, longest: u32) -> impl Iterator<Item = String> + '_ {
        self.texts(longest).map(|text| [self.before, &text, self.after].concat())
    }

    /// The texts alone, of so many letters at most.
    pub fn texts(&self, longest: u32) -> impl Iterator<Item = String> + '_ {
        (0..=longest)
            .flat_map(|length| {
                (0..self.letters.len().pow(length)).map(move |index| (length, index))
            })
            .map(|(length, index)| self.text(length, index))
    }

    /// The text that has as letters the digits of a number in the alphabet's base.
    fn text(&self, length: u32, mut index: usize) -> String {
        let mut text = String::new();
        for _ in 0..length {
            text += self.letters[index % self.letters.len()];
            index /= self.letters.len();
        }
        text
    }
}

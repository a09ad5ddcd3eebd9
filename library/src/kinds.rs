//! The kinds of rows, with the numbers that stand for them.

/// Makes an enum of kinds with their numbers, both ways.
macro_rules! kinds {
    ($(#[$doc:meta])* $name:ident { $($(#[$said:meta])* $kind:ident = $number:literal,)* }) => {
        $(#[$doc])*
        #[derive(Clone, Copy, Debug, PartialEq, Eq, Hash, PartialOrd, Ord)]
        #[repr(u64)]
        pub enum $name {
            $($(#[$said])* $kind = $number,)*
        }

        impl $name {
            /// All of them, in the order of their numbers.
            pub const ALL: &'static [$name] = &[$($name::$kind),*];

            /// The one with a number, if there is one.
            pub const fn from_number(number: u64) -> Option<$name> {
                match number {
                    $($number => Some($name::$kind),)*
                    _ => None,
                }
            }

            /// The number that stands for it in a row or a refusal.
            pub const fn number(self) -> u64 {
                self as u64
            }
        }
    };
}
pub(crate) use kinds;

kinds! {
    /// In which order the bytes of a packet's numbers stand.
    Endianness {
        /// `little_endian_packets`
        Little = 1,
        /// `big_endian_packets`
        Big = 2,
    }
}

kinds! {
    /// What a declaration declares.
    #[non_exhaustive]
    DeclarationKind {
        /// `enum Dye : 2 { .. }`
        Enum = 1,
        /// `packet Scan { .. }`
        Packet = 2,
        /// `struct Lamp { .. }`
        Struct = 3,
        /// `group Position { .. }`
        Group = 4,
        /// `checksum Crc16 : 16 "crc16"`
        Checksum = 5,
        /// `custom_field Label "counted_text"`
        CustomField = 6,
    }
}

kinds! {
    /// What a field is. [`FieldDescription`](crate::FieldDescription) has what each kind says.
    #[non_exhaustive]
    FieldKind {
        /// `_checksum_start_(crc)`
        Checksum = 1,
        /// `_padding_[4096]`
        Padding = 2,
        /// `_size_(_payload_) : 16`
        Size = 3,
        /// `_count_(lamps) : 8`
        Count = 4,
        /// `_elementsize_(lamps) : 8`
        ElementSize = 5,
        /// `_body_`
        Body = 6,
        /// `_payload_`
        Payload = 7,
        /// `_fixed_ = 1 : 8`
        FixedScalar = 8,
        /// `_fixed_ = CYAN : Dye`
        FixedEnum = 9,
        /// `_reserved_ : 4`
        Reserved = 10,
        /// `lamps : Lamp[]`
        Array = 11,
        /// `head : 2`
        Scalar = 12,
        /// `lamp : Lamp`
        Typedef = 13,
        /// `Position { head = 0 }`
        Group = 14,
    }
}

kinds! {
    /// What a tag of an enum is.
    #[non_exhaustive]
    TagKind {
        /// `CYAN = 0`
        Value = 1,
        /// `NEGATIVE = 0x10..0x3f`
        Range = 2,
        /// `UNCHARTED = ..`
        Other = 3,
        /// A value inside a range.
        Inner = 4,
    }
}

kinds! {
    /// What a constraint asks of a field.
    #[non_exhaustive]
    ConstraintKind {
        /// `version = 2`
        Integer = 1,
        /// `kind = LINE`
        Tag = 2,
    }
}

kinds! {
    /// How a comment is written.
    #[non_exhaustive]
    CommentKind {
        /// `/* .. */`
        Block = 1,
        /// `// ..`
        Line = 2,
    }
}

kinds! {
    /// What a chunk of a layout is.
    #[non_exhaustive]
    ChunkKind {
        /// Bit fields side by side, of whole bytes together.
        Bits = 1,
        /// Bytes of a known width.
        Bytes = 2,
        /// Bytes of a width that the description does not tell.
        Dynamic = 3,
    }
}

kinds! {
    /// The tables of a reading.
    #[non_exhaustive]
    Table {
        /// The rows of declarations.
        Declarations = 1,
        /// The rows of fields.
        Fields = 2,
        /// The rows of tags.
        Tags = 3,
        /// The rows of constraints.
        Constraints = 4,
        /// The rows of comments.
        Comments = 5,
    }
}

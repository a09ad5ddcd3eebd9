//! Fields.

use crate::constraint::Constraint;
use crate::kinds::FieldKind;
use crate::row::{view, Rows};
use crate::words::{
    FIELD_A_OFFSET, FIELD_B_OFFSET, FIELD_CONDITION, FIELD_C_OFFSET, FIELD_FIRST_CONSTRAINT,
    FIELD_FLAG_A, FIELD_FLAG_B,
};

view! {
    /// A field of a packet, a struct or a group.
    ///
    /// ```
    /// use pdl_front::FieldDescription;
    ///
    /// let reading = pdl_front::read(b"little_endian_packets\ngroup G { by_hand: 8, gain: 8 if by_hand = 1 }")?;
    /// let gain = reading.field(1).unwrap();
    /// assert_eq!(gain.description(), FieldDescription::Scalar { id: "gain", width: 8 });
    /// assert_eq!(gain.condition().unwrap().id(), "by_hand");
    /// # Ok::<(), pdl_front::Refusal>(())
    /// ```
    Field, Fields, FieldKind
}

/// What a field says, kind by kind. Widths are in bits.
#[derive(Clone, Copy, Debug, PartialEq, Eq, Hash)]
#[non_exhaustive]
pub enum FieldDescription<'s> {
    /// From here on the checksum of this name is taken.
    Checksum {
        /// The checksum's field.
        field_id: &'s str,
    },
    /// What stands before is filled up.
    Padding {
        /// To so many bytes.
        size: u64,
    },
    /// The size of another field, in bytes.
    Size {
        /// The other field, `_payload_` or `_body_`.
        field_id: &'s str,
        /// How wide the size is.
        width: u64,
    },
    /// How many elements an array has.
    Count {
        /// The array.
        field_id: &'s str,
        /// How wide the count is.
        width: u64,
    },
    /// How large each element of an array is.
    ElementSize {
        /// The array.
        field_id: &'s str,
        /// How wide the size is.
        width: u64,
    },
    /// What a packet that has this one as its parent adds.
    Body,
    /// The same, with a name of its own.
    Payload {
        /// What is added to its size, with its `+`.
        size_modifier: Option<&'s str>,
    },
    /// A number that is always the same.
    FixedScalar {
        /// How wide it is.
        width: u64,
        /// The number.
        value: u64,
    },
    /// A tag that is always the same.
    FixedEnum {
        /// The enum.
        enum_id: &'s str,
        /// Its tag.
        tag_id: &'s str,
    },
    /// Bits that mean nothing.
    Reserved {
        /// How many.
        width: u64,
    },
    /// Elements of one type, or numbers of one width.
    Array {
        /// Its name.
        id: &'s str,
        /// The width of a number; absent where the elements have a type.
        width: Option<u64>,
        /// The type of the elements; absent where they are numbers.
        type_id: Option<&'s str>,
        /// What is added to its size, with its `+`.
        size_modifier: Option<&'s str>,
        /// How many elements there are, if the description tells.
        size: Option<u64>,
    },
    /// A number.
    Scalar {
        /// Its name.
        id: &'s str,
        /// How wide it is.
        width: u64,
    },
    /// A value of a declared type.
    Typedef {
        /// Its name.
        id: &'s str,
        /// The type.
        type_id: &'s str,
    },
    /// The fields of a group; [`Field::constraints`] has what it asks of them.
    Group {
        /// The group.
        group_id: &'s str,
    },
}

impl<'r, 's> Field<'r, 's> {
    /// Name a of its row, if its kind has one and it is there.
    pub fn name_a(&self) -> Option<&'s str> {
        self.0.name(FIELD_A_OFFSET)
    }

    /// Name b of its row, if its kind has one and it is there.
    pub fn name_b(&self) -> Option<&'s str> {
        self.0.name(FIELD_B_OFFSET)
    }

    /// Name c of its row, if its kind has one and it is there.
    pub fn name_c(&self) -> Option<&'s str> {
        self.0.name(FIELD_C_OFFSET)
    }

    /// Number a of its row, if its kind has one and it is there.
    pub fn number_a(&self) -> Option<u64> {
        self.0.number(FIELD_FLAG_A)
    }

    /// Number b of its row, if its kind has one and it is there.
    pub fn number_b(&self) -> Option<u64> {
        self.0.number(FIELD_FLAG_B)
    }

    /// What it says, with the names and the numbers of its kind.
    pub fn description(&self) -> FieldDescription<'s> {
        use FieldDescription::*;
        let a = self.name_a().unwrap_or("");
        let b = self.name_b().unwrap_or("");
        let number = self.number_a().unwrap_or(0);
        match self.kind() {
            FieldKind::Checksum => Checksum { field_id: a },
            FieldKind::Padding => Padding { size: number },
            FieldKind::Size => Size { field_id: a, width: number },
            FieldKind::Count => Count { field_id: a, width: number },
            FieldKind::ElementSize => ElementSize { field_id: a, width: number },
            FieldKind::Body => Body,
            FieldKind::Payload => Payload { size_modifier: self.name_c() },
            FieldKind::FixedScalar => {
                FixedScalar { width: number, value: self.number_b().unwrap_or(0) }
            }
            FieldKind::FixedEnum => FixedEnum { enum_id: a, tag_id: b },
            FieldKind::Reserved => Reserved { width: number },
            FieldKind::Array => Array {
                id: a,
                width: self.number_a(),
                type_id: self.name_b(),
                size_modifier: self.name_c(),
                size: self.number_b(),
            },
            FieldKind::Scalar => Scalar { id: a, width: number },
            FieldKind::Typedef => Typedef { id: a, type_id: b },
            FieldKind::Group => Group { group_id: a },
        }
    }

    /// What a group field asks of the group's fields.
    pub fn constraints(&self) -> Rows<'r, 's, Constraint<'r, 's>> {
        self.0.rows(FIELD_FIRST_CONSTRAINT)
    }

    /// The condition behind `if`: the field is there only where it holds.
    pub fn condition(&self) -> Option<Constraint<'r, 's>> {
        let row = self.0.at(FIELD_CONDITION).checked_sub(1)?;
        self.0.reading.constraint(row)
    }
}

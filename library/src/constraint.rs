//! Constraints: what a header, a group field or a condition asks of a field.

use crate::kinds::ConstraintKind;
use crate::row::view;
use crate::words::{CONSTRAINT_ID_OFFSET, CONSTRAINT_TAG_OFFSET, CONSTRAINT_VALUE};

view! {
    /// A constraint: a field is to be an integer or a tag.
    ///
    /// ```
    /// let reading = pdl_front::read(b"little_endian_packets\npacket B : A (kind = LINE, version = 2) {}")?;
    /// let said: Vec<_> = reading.constraints().map(|it| (it.id(), it.tag(), it.value())).collect();
    /// assert_eq!(said, [("kind", Some("LINE"), None), ("version", None, Some(2))]);
    /// # Ok::<(), pdl_front::Refusal>(())
    /// ```
    Constraint, Constraints, ConstraintKind
}

impl<'r, 's> Constraint<'r, 's> {
    /// The field that is asked.
    pub fn id(&self) -> &'s str {
        self.0.name(CONSTRAINT_ID_OFFSET).unwrap_or("")
    }

    /// The tag that it is to be, if it is to be one.
    pub fn tag(&self) -> Option<&'s str> {
        self.0.name(CONSTRAINT_TAG_OFFSET)
    }

    /// The integer that it is to be, if it is to be one.
    pub fn value(&self) -> Option<u64> {
        match self.kind() {
            ConstraintKind::Integer => Some(self.0.words[CONSTRAINT_VALUE]),
            ConstraintKind::Tag => None,
        }
    }
}

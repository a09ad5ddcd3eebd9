//! Declarations.

use crate::constraint::Constraint;
use crate::field::Field;
use crate::kinds::DeclarationKind;
use crate::layout::Layout;
use crate::refusal::Refusal;
use crate::row::{view, Rows};
use crate::tag::Tag;
use crate::words::{
    DECLARATION_FIRST, DECLARATION_FIRST_CONSTRAINT, DECLARATION_ID_OFFSET,
    DECLARATION_OTHER_OFFSET, DECLARATION_WIDTH_FLAG,
};

view! {
    /// A declaration: an enum, a packet, a struct, a group, a checksum or a custom field.
    ///
    /// ```
    /// let source = b"little_endian_packets\npacket Line : Scan (kind = LINE) { head: 2, _reserved_: 6 }";
    /// let reading = pdl_front::read(source)?;
    /// let line = reading.declaration(0).unwrap();
    /// assert_eq!(line.kind(), pdl_front::DeclarationKind::Packet);
    /// assert_eq!((line.id(), line.parent()), ("Line", Some("Scan")));
    /// assert_eq!(line.constraints().next().unwrap().tag(), Some("LINE"));
    /// assert_eq!(line.fields().len(), 2);
    /// # Ok::<(), pdl_front::Refusal>(())
    /// ```
    Declaration, Declarations, DeclarationKind
}

impl<'r, 's> Declaration<'r, 's> {
    /// Its name.
    pub fn id(&self) -> &'s str {
        self.0.name(DECLARATION_ID_OFFSET).unwrap_or("")
    }

    /// The parent of a packet or a struct.
    pub fn parent(&self) -> Option<&'s str> {
        match self.kind() {
            DeclarationKind::Packet | DeclarationKind::Struct => {
                self.0.name(DECLARATION_OTHER_OFFSET)
            }
            _ => None,
        }
    }

    /// The function text of a checksum or a custom field, without its quotes. It may be there and be empty.
    pub fn function(&self) -> Option<&'s str> {
        match self.kind() {
            DeclarationKind::Checksum | DeclarationKind::CustomField => {
                self.0.name(DECLARATION_OTHER_OFFSET)
            }
            _ => None,
        }
    }

    /// The width in bits of an enum or a checksum, or of a custom field that tells it.
    pub fn width(&self) -> Option<u64> {
        self.0.number(DECLARATION_WIDTH_FLAG)
    }

    /// The fields of a packet, a struct or a group. A parent's fields are not among them.
    pub fn fields(&self) -> Rows<'r, 's, Field<'r, 's>> {
        match self.kind() {
            DeclarationKind::Enum => Rows::new(self.0.reading, 0..0),
            _ => self.0.rows(DECLARATION_FIRST),
        }
    }

    /// The tags of an enum. Those inside a range follow it, as [`Tag::inner`] has them once more.
    pub fn tags(&self) -> Rows<'r, 's, Tag<'r, 's>> {
        match self.kind() {
            DeclarationKind::Enum => self.0.rows(DECLARATION_FIRST),
            _ => Rows::new(self.0.reading, 0..0),
        }
    }

    /// The constraints of the header, on fields of a parent.
    pub fn constraints(&self) -> Rows<'r, 's, Constraint<'r, 's>> {
        self.0.rows(DECLARATION_FIRST_CONSTRAINT)
    }

    /// Where each bit of its fields stands; see [`Reading::layout`](crate::Reading::layout).
    pub fn layout(&self) -> Result<Layout, Refusal> {
        self.0.reading.layout(self.0.index)
    }
}

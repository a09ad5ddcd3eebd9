//! Tags of enums.

use std::ops::RangeInclusive;

use crate::kinds::TagKind;
use crate::row::{view, Rows};
use crate::words::{TAG_ID_OFFSET, TAG_INNER, TAG_RANGE_END, TAG_VALUE};

view! {
    /// A tag of an enum.
    ///
    /// ```
    /// use pdl_front::TagKind;
    ///
    /// let reading = pdl_front::read(b"little_endian_packets\nenum E : 8 { A = 0, B = 1..9 { C = 5 }, D = .. }")?;
    /// let tags: Vec<_> = reading.tags().collect();
    /// assert_eq!((tags[0].id(), tags[0].value()), ("A", Some(0)));
    /// assert_eq!((tags[1].id(), tags[1].range()), ("B", Some(1..=9)));
    /// assert_eq!(tags[1].inner().next().unwrap().id(), "C");
    /// assert_eq!(tags[2].kind(), TagKind::Inner);
    /// assert_eq!(tags[3].kind(), TagKind::Other);
    /// # Ok::<(), pdl_front::Refusal>(())
    /// ```
    Tag, Tags, TagKind
}

impl<'r, 's> Tag<'r, 's> {
    /// Its name.
    pub fn id(&self) -> &'s str {
        self.0.name(TAG_ID_OFFSET).unwrap_or("")
    }

    /// Its value, if it has one alone.
    pub fn value(&self) -> Option<u64> {
        match self.kind() {
            TagKind::Value | TagKind::Inner => Some(self.0.words[TAG_VALUE]),
            TagKind::Range | TagKind::Other => None,
        }
    }

    /// Its values, if it is a range. The description may have written the ends the wrong way round.
    pub fn range(&self) -> Option<RangeInclusive<u64>> {
        match self.kind() {
            TagKind::Range => Some(self.0.words[TAG_VALUE]..=self.0.words[TAG_RANGE_END]),
            TagKind::Value | TagKind::Inner | TagKind::Other => None,
        }
    }

    /// The tags inside a range, whose rows follow at once.
    pub fn inner(&self) -> Rows<'r, 's, Tag<'r, 's>> {
        let first = self.0.index + 1;
        Rows::new(self.0.reading, first..first + self.0.at(TAG_INNER))
    }
}

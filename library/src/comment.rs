//! Comments.

use crate::row::view;

view! {
    /// A comment, with the marks that it is written in.
    ///
    /// ```
    /// let reading = pdl_front::read(b"// a head\nlittle_endian_packets\n/* no packet */")?;
    /// let said: Vec<_> = reading.comments().map(|comment| comment.text()).collect();
    /// assert_eq!(said, ["// a head", "/* no packet */"]);
    /// # Ok::<(), pdl_front::Refusal>(())
    /// ```
    Comment, Comments, CommentKind
}

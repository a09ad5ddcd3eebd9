//! What a view writes.

/// The text of a view, and whether the exit status has to say that something was refused.
#[derive(Default)]
pub struct Page {
    pub text: String,
    pub refused: bool,
}

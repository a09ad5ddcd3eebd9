//! What a description is made of: the words of the people who have such packets.

/// All that one kind of description has of its own.
pub struct World {
    /// What stands first: the endianness line, headers, and declarations that others rest on.
    pub front: &'static str,
    pub calls: Family,
    pub answers: Family,
    pub reports: Family,
    pub chapters: &'static [Chapter],
    /// What stands before a subject's name when there are more than one of it.
    pub editions: &'static [&'static str],
    /// Fields of whole bytes: a name, a width, and what a comment says of it.
    pub scalars: &'static [(&'static str, u32, &'static str)],
    /// Fields of one bit.
    pub flags: &'static [&'static str],
    /// Numbers that share their bytes, the lowest bits first.
    pub shares: &'static [&'static [(&'static str, u32)]],
    /// Names of arrays, their elements, and what they are counted by.
    pub arrays: &'static [(&'static str, &'static str, Length)],
    /// Groups of the front, as a field takes them, with the names of their fields.
    pub shared: &'static [(&'static str, &'static [&'static str])],
    pub kinds: &'static [Kinds],
}

/// Packets of one parent, which tells them apart by a code.
pub struct Family {
    /// What they are called behind their subject.
    pub suffix: &'static str,
    pub parent: &'static str,
    /// The parent's field, and the enum that is its type.
    pub code: &'static str,
    pub codes: &'static str,
    /// What a comment says of that enum, and its last tags.
    pub says: &'static str,
    pub last_codes: &'static [&'static str],
    /// The field that stands before all others, if there is one.
    pub first: &'static str,
}

/// How many elements an array has.
#[derive(Clone, Copy)]
pub enum Length {
    /// As many as a field says.
    Counted,
    /// As many bytes as a field says.
    Sized,
    /// As many bytes as a field says, and then padding up to so many.
    Padded(u32),
    /// Always so many.
    Fixed(u32),
    /// As many as a field says, and another how many bytes each has.
    Measured,
    /// As many as there is room for, where a flag says that there are any.
    Flagged,
}

/// Subjects that belong together; their calls have numbers in one block.
pub struct Chapter {
    pub title: &'static str,
    pub says: &'static str,
    pub subjects: &'static [Subject],
}

/// What calls are about: its name, and the fields that say which one is meant.
pub struct Subject {
    pub name: &'static str,
    pub key: &'static str,
    pub verbs: &'static [Verb],
}

/// What is done to a subject.
#[derive(Clone, Copy)]
pub enum Verb {
    Read,
    Set,
    Add,
    Remove,
    Clear,
    Start,
    Stop,
}

/// An enum that subjects have: the end of its name, its width and the names of its tags.
pub struct Kinds {
    pub name: &'static str,
    pub width: u32,
    pub tags: &'static [&'static str],
}

/// What verbs subjects have.
pub const STORED: &[Verb] = &[Verb::Read, Verb::Set];
pub const LISTED: &[Verb] = &[Verb::Add, Verb::Remove, Verb::Clear, Verb::Read];
pub const RUNNING: &[Verb] = &[Verb::Set, Verb::Start, Verb::Stop];
pub const MEASURED: &[Verb] = &[Verb::Read, Verb::Start];

impl Verb {
    /// The word, and how a sentence begins with it.
    pub fn words(self) -> (&'static str, &'static str) {
        match self {
            Verb::Read => ("read", "Reads"),
            Verb::Set => ("set", "Sets"),
            Verb::Add => ("add to", "Adds to"),
            Verb::Remove => ("remove from", "Removes from"),
            Verb::Clear => ("clear", "Clears"),
            Verb::Start => ("start", "Starts"),
            Verb::Stop => ("stop", "Stops"),
        }
    }

    /// Whether it is done to one of several, which has to be named.
    pub fn is_done_to_one(self) -> bool {
        !matches!(self, Verb::Clear)
    }

    /// Whether the call carries what the subject has.
    pub fn tells(self) -> bool {
        matches!(self, Verb::Set | Verb::Add)
    }

    /// Whether the answer carries what the subject has.
    pub fn asks(self) -> bool {
        matches!(self, Verb::Read)
    }
}

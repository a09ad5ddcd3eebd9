//! The declarations that are asked for, and what belongs to them.

use pdl_front::{Declaration, DeclarationKind, Layout, Reading, Refusal};

/// The names of the declarations that are asked for: all of them where there is none.
pub struct Selection(pub Vec<String>);

impl Selection {
    /// Whether everything is asked for, also what stands outside of all declarations.
    pub fn is_all(&self) -> bool {
        self.0.is_empty()
    }

    /// Whether a declaration is asked for.
    pub fn has(&self, declaration: &Declaration) -> bool {
        self.is_all() || self.0.iter().any(|name| name == declaration.id())
    }

    /// Whether a row is asked for that belongs to this declaration, or to none.
    pub fn has_row_of(&self, owner: &Option<Declaration>) -> bool {
        owner.as_ref().map_or(self.is_all(), |declaration| self.has(declaration))
    }

    /// The first name that no declaration has.
    pub fn unknown(&self, reading: &Reading) -> Option<&str> {
        let unknown =
            |name: &&String| !reading.declarations().any(|declaration| declaration.id() == *name);
        self.0.iter().find(unknown).map(String::as_str)
    }

    /// The declarations whose layouts are asked for, each with its layout. One that is named is among them also where it is no
    /// packet, struct or group; it is refused then.
    pub fn layouts<'r, 's: 'r>(
        &'r self,
        reading: &'r Reading<'s>,
    ) -> impl Iterator<Item = (Declaration<'r, 's>, Result<Layout, Refusal>)> + 'r {
        let asked =
            move |it: &Declaration| if self.is_all() { has_layout(it) } else { self.has(it) };
        reading.declarations().filter(asked).map(|it| (it, it.layout()))
    }
}

/// Whether a declaration is a packet, a struct or a group.
fn has_layout(declaration: &Declaration) -> bool {
    matches!(
        declaration.kind(),
        DeclarationKind::Packet | DeclarationKind::Struct | DeclarationKind::Group
    )
}

/// The declaration in which an offset of the source stands.
pub fn owner<'r, 's>(reading: &'r Reading<'s>, offset: usize) -> Option<Declaration<'r, 's>> {
    let (mut low, mut high) = (0, reading.counts().declarations);
    while low < high {
        let middle = low + (high - low) / 2;
        let declaration = reading.declaration(middle)?;
        if offset < declaration.span().start.offset {
            high = middle;
        } else if offset >= declaration.span().end.offset {
            low = middle + 1;
        } else {
            return Some(declaration);
        }
    }
    None
}

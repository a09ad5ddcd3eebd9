//! The fields of one declaration: whole bytes at every place where a part ends, and no name twice.

use super::world::{Length, World};
use crate::sources::Rng;

#[derive(Clone, Default)]
pub struct Fields {
    /// Each as it is written, without the indentation.
    lines: Vec<String>,
    names: Vec<String>,
}

impl Fields {
    /// No fields yet, and none may have a name of these.
    pub fn beside(fields: &str) -> Fields {
        let mut beside = Fields::default();
        beside.add(fields);
        beside.lines.clear();
        beside
    }

    pub fn lines(&self) -> &[String] {
        &self.lines
    }

    /// Adds fields that stand on a line each, as `key: 8`.
    pub fn add(&mut self, fields: &str) {
        for field in fields.lines() {
            let name = field.split([':', ' ']).next().unwrap_or(field);
            self.names.push(name.to_owned());
            self.lines.push(format!("{field},"));
        }
    }

    /// Adds fields of another list, which has none of these names.
    pub fn extend(&mut self, others: &Fields) {
        self.lines.extend(others.lines.iter().cloned());
        self.names.extend(others.names.iter().cloned());
    }

    /// Takes a name, unless it is taken.
    fn is_free(&mut self, name: &str) -> bool {
        let free = !self.names.iter().any(|taken| taken == name);
        if free {
            self.names.push(name.to_owned());
        }
        free
    }

    /// Adds a few parts by chance.
    pub fn by_chance(&mut self, rng: &mut Rng, world: &World) {
        for _ in 0..1 + rng.below(5) {
            match rng.below(16) {
                0..=7 => self.scalar(rng, world),
                8..=10 => self.flags(rng, world),
                11 | 12 => self.array(rng, world),
                13 => self.shared(rng, world),
                14 => self.conditional(rng, world),
                _ => self.share(rng, world),
            }
        }
    }

    /// A number of whole bytes, now and then with what it means.
    pub fn scalar(&mut self, rng: &mut Rng, world: &World) {
        let (name, width, says) = rng.pick(world.scalars);
        if self.is_free(name) {
            let comment = match rng.below(8) {
                _ if says.is_empty() => String::new(),
                0..=3 => format!("  // {says}"),
                4 => format!("  /* {says} */"),
                _ => String::new(),
            };
            self.lines.push(format!("{name}: {width},{comment}"));
        }
    }

    /// Some bits, and what is left of their byte.
    pub fn flags(&mut self, rng: &mut Rng, world: &World) {
        let mut left = 8;
        for _ in 0..2 + rng.below(3) {
            let name = rng.pick(world.flags);
            if self.is_free(name) {
                self.lines.push(format!("{name}: 1,"));
                left -= 1;
            }
        }
        if left < 8 {
            self.lines.push(format!("_reserved_: {left},"));
        }
    }

    /// Numbers that share their bytes, where none of them is there already.
    fn share(&mut self, rng: &mut Rng, world: &World) {
        let share = rng.pick(world.shares);
        if share.iter().all(|(name, _)| self.is_free(name)) {
            self.lines.extend(share.iter().map(|(name, width)| format!("{name}: {width},")));
        }
    }

    fn array(&mut self, rng: &mut Rng, world: &World) {
        let (name, of, length) = rng.pick(world.arrays);
        if !self.is_free(name) {
            return;
        }
        let lines = match length {
            Length::Counted => vec![format!("_count_({name}): 8"), format!("{name}: {of}[]")],
            Length::Sized => vec![format!("_size_({name}): 8"), format!("{name}: {of}[]")],
            Length::Measured => vec![
                format!("_elementsize_({name}): 8"),
                format!("_count_({name}): 8"),
                format!("{name}: {of}[]"),
            ],
            Length::Padded(bytes) => vec![
                format!("_size_({name}): 8"),
                format!("{name}: {of}[]"),
                format!("_padding_[{bytes}]"),
            ],
            Length::Fixed(count) => vec![format!("{name}: {of}[{count}]")],
            Length::Flagged => vec![
                format!("has_{name}: 1"),
                "_reserved_: 7".to_owned(),
                format!("{name}: {of}[] if has_{name} = 1"),
            ],
        };
        self.lines.extend(lines.into_iter().map(|line| line + ","));
    }

    /// A group of the front, where none of its fields is there already.
    fn shared(&mut self, rng: &mut Rng, world: &World) {
        let (field, names) = rng.pick(world.shared);
        if !names.iter().any(|name| self.names.iter().any(|taken| taken == name)) {
            self.names.extend(names.iter().map(|name| (*name).to_owned()));
            self.lines.push(format!("{field},"));
        }
    }

    /// A number that is there only where a flag says so.
    fn conditional(&mut self, rng: &mut Rng, world: &World) {
        let (name, width, _) = rng.pick(world.scalars);
        if self.is_free(name) {
            let flag = format!("has_{name}");
            self.lines.extend([format!("{flag}: 1,"), "_reserved_: 7,".to_owned()]);
            self.lines.push(format!("{name}: {width} if {flag} = 1,"));
        }
    }
}

//! Descriptions as people have them, of any length: written by chance, and the same from the same seed.

mod controller;
mod fields;
mod heads;
mod subjects;
mod world;

use super::rng::Rng;
use std::fmt::Write;
use std::ops::Range;
use subjects::Section;
use world::{Chapter, Family};

pub use controller::CONTROLLER;
pub use heads::HEADS;
pub use world::World;

/// How many bits of a code tell what it is within its chapter.
const BITS_IN_CHAPTER: u32 = 10;

/// A description of so many bytes at most: the front, and as many subjects as fit, chapter by chapter and then in other editions.
pub fn realistic(rng: &mut Rng, world: &World, bytes: usize) -> String {
    let mut book = Book { world, sections: world.chapters.iter().map(|_| vec![]).collect() };
    let mut written = book.written();
    for edition in 0.. {
        for (number, chapter) in world.chapters.iter().enumerate() {
            for subject in chapter.subjects {
                let name = edited(world, edition, subject.name);
                book.sections[number].push(subjects::section(rng, world, subject, name));
                let longer = book.written();
                if longer.len() > bytes {
                    return written;
                }
                written = longer;
            }
        }
    }
    written
}

/// How many bytes the descriptions have that people have.
const USUAL_BYTES: Range<usize> = 60_000..400_000;

/// A description of each world, of any usual length.
pub fn corpus(rng: &mut Rng) -> [String; 2] {
    [&CONTROLLER, &HEADS].map(|world| {
        let bytes = USUAL_BYTES.start + rng.below(USUAL_BYTES.len());
        realistic(rng, world, bytes)
    })
}

/// What a subject is called in an edition: behind a word of the world, and, where these are used up, before a version.
fn edited(world: &World, edition: usize, name: &str) -> String {
    let (version, word) = (edition / world.editions.len(), edition % world.editions.len());
    let name = format!("{} {name}", world.editions[word]).trim_start().to_owned();
    match version {
        0 => name,
        _ => format!("{name} v{}", version + 1),
    }
}

/// A description under way: what is written about the subjects of each chapter.
struct Book<'w> {
    world: &'w World,
    sections: Vec<Vec<Section>>,
}

impl Book<'_> {
    /// Each chapter about whose subjects something is written, with its number.
    fn chapters(&self) -> impl Iterator<Item = (usize, &Chapter, &[Section])> {
        let chapters = self.world.chapters.iter().zip(&self.sections).enumerate();
        chapters
            .map(|(number, (chapter, sections))| (number + 1, chapter, sections.as_slice()))
            .filter(|(_, _, sections)| !sections.is_empty())
    }

    fn written(&self) -> String {
        let mut text = self.world.front.to_owned();
        text += "\n/* ---- Codes ---- */\n";
        text += &self.codes(&self.world.calls, |section| &section.calls);
        text += &self.codes(&self.world.reports, |section| &section.reports);
        for (_, chapter, sections) in self.chapters() {
            let Chapter { title, says, .. } = chapter;
            write!(text, "\n/* ---- {title} ----\n *\n * {says}\n */\n\n").expect("it is a string");
            text.extend(sections.iter().map(|section| section.text.as_str()));
            text.truncate(text.trim_end().len());
            text.push('\n');
        }
        text
    }

    /// The enum of a family's codes, with the chapters as comments.
    fn codes(&self, family: &Family, names: impl Fn(&Section) -> &Vec<String>) -> String {
        let Family { says, codes, last_codes, .. } = family;
        let mut text = format!("\n// {says}\nenum {codes} : 16 {{\n");
        for (number, chapter, sections) in self.chapters() {
            writeln!(text, "    // {}", chapter.title).expect("it is a string");
            let base = number << BITS_IN_CHAPTER;
            for (name, code) in sections.iter().flat_map(&names).zip(base + 1..) {
                writeln!(text, "    {name} = {code:#06x},").expect("it is a string");
            }
        }
        text.extend(last_codes.iter().map(|tag| format!("    {tag},\n")));
        text + "}\n"
    }
}

//! What stands in a description about one subject: its types, and the packets of its calls, answers and reports.

use super::fields::Fields;
use super::world::{Family, Subject, Verb, World};
use crate::sources::Rng;

/// The text about a subject, and the names of the codes that its packets have.
pub struct Section {
    pub text: String,
    pub calls: Vec<String>,
    pub reports: Vec<String>,
}

/// A section under way.
pub struct Writer<'w> {
    rng: &'w mut Rng,
    world: &'w World,
    subject: &'w Subject,
    /// The subject as this description calls it, in small letters and with blanks.
    name: String,
    section: Section,
}

/// Writes about a subject.
pub fn section(rng: &mut Rng, world: &World, subject: &Subject, name: String) -> Section {
    let section = Section { text: String::new(), calls: vec![], reports: vec![] };
    let mut writer = Writer { rng, world, subject, name, section };
    let content = writer.content();
    for verb in subject.verbs {
        writer.call(*verb, &content);
    }
    if subject.verbs.iter().any(|verb| matches!(verb, Verb::Start)) {
        writer.report();
    }
    writer.section
}

/// `link key` as `LinkKey`.
fn camel(name: &str) -> String {
    let capital = |word: &str| word[..1].to_uppercase() + &word[1..];
    name.split_whitespace().map(capital).collect()
}

/// `link key` as `LINK_KEY`.
fn upper(name: &str) -> String {
    name.replace(' ', "_").to_uppercase()
}

impl Writer<'_> {
    /// What the subject has, with the types that are needed for it.
    fn content(&mut self) -> Fields {
        let mut content = Fields::beside(self.subject.key);
        if self.rng.one_in(3) {
            let field = self.kinds();
            content.add(&field);
        }
        content.by_chance(self.rng, self.world);
        if self.rng.one_in(4) {
            let entry = self.entry();
            content.add(&format!("_count_(entries): 8\nentries: {entry}[]"));
        }
        content
    }

    /// A declaration with a comment or without, and a blank line behind it.
    fn declaration(&mut self, comment: &str, head: &str, lines: &[String]) {
        if !comment.is_empty() {
            self.put(&format!("// {comment}"));
        }
        if lines.is_empty() {
            self.put(&format!("{head} {{ }}\n"));
            return;
        }
        self.put(&format!("{head} {{"));
        for line in lines {
            self.put(&format!("    {line}"));
        }
        self.put("}\n");
    }

    fn put(&mut self, line: &str) {
        self.section.text.extend([line, "\n"]);
    }

    /// An enum of the subject: the field that has it as its type.
    fn kinds(&mut self) -> String {
        let kinds = &self.world.kinds[self.rng.below(self.world.kinds.len())];
        let name = camel(&format!("{} {}", self.name, kinds.name));
        let count = 2 + self.rng.below(kinds.tags.len() - 1);
        let digits = kinds.width as usize / 4 + 2;
        let tag = |(value, tag): (usize, &&str)| format!("{tag} = {value:#0digits$x},");
        let mut tags: Vec<_> = kinds.tags[..count].iter().enumerate().map(tag).collect();
        let top = 1_u64 << (kinds.width - 1);
        match self.rng.below(4) {
            0 => tags.push(format!("VENDOR_{} = {top:#x}..{:#x},", upper(kinds.name), 2 * top - 1)),
            1 => tags.push(format!("OTHER_{} = ..,", upper(kinds.name))),
            _ => {}
        }
        self.declaration("", &format!("enum {name} : {}", kinds.width), &tags);
        format!("{}: {name}", kinds.name)
    }

    /// A struct of the subject: its name.
    fn entry(&mut self) -> String {
        let name = camel(&format!("{} entry", self.name));
        let mut fields = Fields::default();
        for _ in 0..2 + self.rng.below(3) {
            fields.scalar(self.rng, self.world);
        }
        fields.flags(self.rng, self.world);
        self.declaration("", &format!("struct {name}"), fields.lines());
        name
    }

    /// A call, and its answer.
    fn call(&mut self, verb: Verb, content: &Fields) {
        let (word, says) = verb.words();
        let name = format!("{word} {}", self.name);
        let world = self.world;
        let (mut call, mut answer) = (Fields::default(), Fields::default());
        answer.add(world.answers.first);
        if verb.is_done_to_one() {
            call.add(self.subject.key);
            answer.add(self.subject.key);
        }
        if verb.tells() {
            call.extend(content);
        }
        if verb.asks() {
            answer.extend(content);
        }
        let comment = format!("{says} the {}.", self.name);
        let code = self.packet(&comment, &world.calls, &name, &call);
        self.section.calls.push(code);
        self.packet("", &world.answers, &name, &answer);
        if self.rng.one_in(16) {
            self.test(&name);
        }
    }

    /// A test of a call, with a few bytes.
    fn test(&mut self, name: &str) {
        let name = camel(&format!("{name} {}", self.world.calls.suffix));
        let cases: Vec<_> = (0..1 + self.rng.below(3))
            .map(|_| (0..4 + self.rng.below(8)).map(|_| self.rng.below(256)).collect::<Vec<_>>())
            .map(|bytes| bytes.iter().map(|byte| format!("\\x{byte:02x}")).collect::<String>())
            .map(|bytes| format!("\"{bytes}\","))
            .collect();
        self.declaration("", &format!("test {name}"), &cases);
    }

    /// What is told of the subject later.
    fn report(&mut self) {
        let (name, world) = (self.name.clone(), self.world);
        let mut fields = Fields::default();
        fields.add(self.subject.key);
        fields.by_chance(self.rng, world);
        fields.flags(self.rng, world);
        let comment = match self.rng.below(3) {
            0 => "May come more than once.".to_owned(),
            1 => format!("Comes when the {name} has ended, or was stopped."),
            _ => String::new(),
        };
        let code = self.packet(&comment, &world.reports, &name, &fields);
        self.section.reports.push(code);
    }

    /// A packet of a family: its code.
    fn packet(&mut self, comment: &str, family: &Family, name: &str, fields: &Fields) -> String {
        let (code, name) = (upper(name), camel(&format!("{name} {}", family.suffix)));
        let Family { parent, code: field, .. } = family;
        let head = format!("packet {name} : {parent} ({field} = {code})");
        self.declaration(comment, &head, fields.lines());
        code
    }
}

//! Rows of the five tables, made from the pest pairs as 01's "Rows" says.

use crate::integer::convert;
use crate::nodes::{
    children, collect_integers, is_name, list, name, number, of_rule, optional, unquoted, Node,
};
use crate::parser::Rule;
use crate::reading::{
    Reading, Refusal, COMMENTS, CONSTRAINTS, DECLARATIONS, ENDIANNESS_WORDS, FIELDS, ROW_WORDS,
    TAGS,
};

/// The reading of a matched file, or refusal 4.
pub fn rows(root: Node) -> Result<Reading, Refusal> {
    if let Some(refusal) = first_bad_integer(&root) {
        return Err(refusal);
    }
    let mut walk = Walk { line_starts: line_starts(root.as_str()), tables: Default::default() };
    for comment in root.clone().into_inner().flatten() {
        if comment.as_rule() == Rule::COMMENT {
            walk.comment(&comment);
        }
    }
    let mut endianness = [0; ENDIANNESS_WORDS];
    for node in children(&root) {
        match node.as_rule() {
            Rule::endianness_declaration => endianness = walk.endianness(&node),
            Rule::test_declaration | Rule::EOI => {}
            _ => walk.declaration(&node),
        }
    }
    Ok(Reading { endianness, tables: walk.tables })
}

/// Refusal 4 of the first integer, in the Rust's order, that does not convert.
fn first_bad_integer(root: &Node) -> Option<Refusal> {
    let mut integers = vec![];
    collect_integers(root, &mut integers);
    integers.iter().find_map(|node| {
        let reason = convert(node.as_str().as_bytes()).err()?;
        Some(Refusal { number: 4, place: node.as_span().start() as u64, reason })
    })
}

fn line_starts(source: &str) -> Vec<usize> {
    let breaks = source.match_indices('\n').map(|(offset, _)| offset + 1);
    std::iter::once(0).chain(breaks).collect()
}

struct Walk {
    line_starts: Vec<usize>,
    tables: [Vec<u64>; 5],
}

impl Walk {
    fn endianness(&self, node: &Node) -> [u64; ENDIANNESS_WORDS] {
        let value = if node.as_str().starts_with("little") { 1 } else { 2 };
        let mut words = [value; ENDIANNESS_WORDS];
        words[1..].copy_from_slice(&self.place(node));
        words
    }

    fn comment(&mut self, node: &Node) {
        // Inside an atomic rule pest names no further rules: the text says which comment it is.
        let kind = if node.as_str().starts_with("/*") { 1 } else { 2 };
        self.push(COMMENTS, kind, node, &[]);
    }

    fn declaration(&mut self, node: &Node) {
        let parts = children(node);
        let mut ids = of_rule(&parts, Rule::identifier);
        let id = name(ids.next());
        let parent_or_function = match of_rule(&parts, Rule::string).next() {
            Some(text) => unquoted(text),
            None => name(ids.next()),
        };
        let width = optional(of_rule(&parts, Rule::integer).next().map(number));
        let constraints = self.constraints(&parts);
        let (kind, members) = match node.as_rule() {
            Rule::enum_declaration => (1, self.tags(&parts)),
            Rule::packet_declaration => (2, self.fields(&parts)),
            Rule::struct_declaration => (3, self.fields(&parts)),
            Rule::group_declaration => (4, self.fields(&parts)),
            Rule::checksum_declaration => (5, [0, 0]),
            Rule::custom_field_declaration => (6, [0, 0]),
            rule => unreachable!("no declaration: {rule:?}"),
        };
        let words = [id, parent_or_function, width, members, constraints];
        self.push(DECLARATIONS, kind, node, words.as_flattened());
    }

    fn tags(&mut self, parts: &[Node]) -> [u64; 2] {
        self.listed(TAGS, list(parts, Rule::enum_tag_list), Walk::tag)
    }

    fn fields(&mut self, parts: &[Node]) -> [u64; 2] {
        self.listed(FIELDS, list(parts, Rule::field_list), Walk::field)
    }

    fn constraints(&mut self, parts: &[Node]) -> [u64; 2] {
        let nodes = list(parts, Rule::constraint_list);
        self.listed(CONSTRAINTS, nodes, Walk::constraint)
    }

    /// Makes the rows of a list and answers the first of them and their count.
    fn listed(&mut self, table: usize, nodes: Vec<Node>, row: fn(&mut Walk, &Node)) -> [u64; 2] {
        let first = self.count(table);
        for node in &nodes {
            row(self, node);
        }
        match self.count(table) - first {
            0 => [0, 0],
            count => [first, count],
        }
    }

    fn tag(&mut self, node: &Node) {
        let tag = &children(node)[0];
        let kind = match tag.as_rule() {
            Rule::enum_value => 1,
            Rule::enum_range => 2,
            Rule::enum_other => 3,
            rule => unreachable!("no tag: {rule:?}"),
        };
        let inner = list(&children(tag), Rule::enum_value_list);
        self.tag_row(kind, tag, inner.len() as u64);
        for value in &inner {
            self.tag_row(4, value, 0);
        }
    }

    fn tag_row(&mut self, kind: u64, node: &Node, inner: u64) {
        let parts = children(node);
        let [offset, length] = name(parts.first());
        let mut numbers = of_rule(&parts, Rule::integer).map(number);
        let start = numbers.next().unwrap_or(0);
        let end = numbers.next().unwrap_or(0);
        self.push(TAGS, kind, node, &[offset, length, start, end, inner]);
    }

    fn constraint(&mut self, node: &Node) {
        let parts = children(node);
        let [offset, length] = name(parts.first());
        let (kind, [tag_offset, tag_length], value) = match &parts[1] {
            tag if tag.as_rule() == Rule::identifier => (2, name(Some(tag)), 0),
            integer => (1, [0, 0], number(integer)),
        };
        let words = [offset, length, tag_offset, tag_length, value];
        self.push(CONSTRAINTS, kind, node, &words);
    }

    fn field(&mut self, node: &Node) {
        let parts = children(node);
        let (description, condition) = (&parts[0], parts.get(1));
        let parts = children(description);
        let kind = field_kind(description.as_rule(), &parts);
        let [a, b] = names(kind, &parts);
        let c = name(of_rule(&parts, Rule::size_modifier).next());
        let [number_a, number_b] = numbers(kind, &parts);
        let constraints = self.constraints(&parts);
        let condition = condition.map_or(0, |node| {
            self.constraint(node);
            self.count(CONSTRAINTS)
        });
        let words = [a, b, c, number_a, number_b, constraints];
        let words = [words.as_flattened(), &[condition]].concat();
        self.push(FIELDS, kind, node, &words);
    }

    fn push(&mut self, table: usize, kind: u64, node: &Node, rest: &[u64]) {
        let place = self.place(node);
        let words = 1 + place.len() + rest.len();
        assert_eq!(words, ROW_WORDS[table], "a row of table {table}");
        self.tables[table].push(kind);
        self.tables[table].extend(place);
        self.tables[table].extend(rest);
    }

    fn count(&self, table: usize) -> u64 {
        (self.tables[table].len() / ROW_WORDS[table]) as u64
    }

    fn place(&self, node: &Node) -> [u64; 6] {
        let span = node.as_span();
        let [start, end] = [span.start(), span.end()].map(|offset| self.location(offset));
        [start[0], start[1], start[2], end[0], end[1], end[2]]
    }

    fn location(&self, offset: usize) -> [u64; 3] {
        let line = self.line_starts.partition_point(|&start| start <= offset) - 1;
        [offset, line, offset - self.line_starts[line]].map(|word| word as u64)
    }
}

fn field_kind(rule: Rule, parts: &[Node]) -> u64 {
    match rule {
        Rule::checksum_field => 1,
        Rule::padding_field => 2,
        Rule::size_field => 3,
        Rule::count_field => 4,
        Rule::elementsize_field => 5,
        Rule::body_field => 6,
        Rule::payload_field => 7,
        Rule::fixed_field if parts[0].as_rule() == Rule::integer => 8,
        Rule::fixed_field => 9,
        Rule::reserved_field => 10,
        Rule::array_field => 11,
        Rule::scalar_field => 12,
        Rule::typedef_field => 13,
        Rule::group_field => 14,
        rule => unreachable!("no field: {rule:?}"),
    }
}

/// Names a and b of a field.
fn names(kind: u64, parts: &[Node]) -> [[u64; 2]; 2] {
    let mut names = parts.iter().filter(|node| is_name(node));
    let [first, second] = [name(names.next()), name(names.next())];
    match kind {
        // The enum is name a, though the source has the tag first.
        9 => [second, first],
        _ => [first, second],
    }
}

/// Numbers a and b of a field.
fn numbers(kind: u64, parts: &[Node]) -> [[u64; 2]; 2] {
    let mut numbers = of_rule(parts, Rule::integer).map(number);
    let [first, second] = [optional(numbers.next()), optional(numbers.next())];
    match kind {
        // The width is number a, though the source has the value first.
        8 => [second, first],
        // With a type there is no width, and the only integer is the size.
        11 if parts[1].as_rule() == Rule::identifier => [second, first],
        _ => [first, second],
    }
}

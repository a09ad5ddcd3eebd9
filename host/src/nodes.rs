//! Looking at pest's pairs: the parts of a node, and the words of a part.

use crate::integer::convert;
use crate::parser::Rule;
use pest::iterators::Pair;

pub type Node<'i> = Pair<'i, Rule>;

/// The parts of a node but for comments, as the Rust's own `children`.
pub fn children<'i>(node: &Node<'i>) -> Vec<Node<'i>> {
    let parts = node.clone().into_inner();
    parts.filter(|part| part.as_rule() != Rule::COMMENT).collect()
}

pub fn of_rule<'a, 'i>(parts: &'a [Node<'i>], rule: Rule) -> impl Iterator<Item = &'a Node<'i>> {
    parts.iter().filter(move |part| part.as_rule() == rule)
}

/// The members of the list that stands among the parts, none if it is absent.
pub fn list<'i>(parts: &[Node<'i>], rule: Rule) -> Vec<Node<'i>> {
    of_rule(parts, rule).next().map_or(vec![], children)
}

pub fn name(node: Option<&Node>) -> [u64; 2] {
    node.map_or([0, 0], |node| {
        [node.as_span().start(), node.as_str().len()].map(|word| word as u64)
    })
}

/// The text of a string without its quotes.
pub fn unquoted(node: &Node) -> [u64; 2] {
    let [offset, length] = name(Some(node));
    [offset + 1, length - 2]
}

/// The number of an integer, after all have been seen to convert.
pub fn number(node: &Node) -> u64 {
    convert(node.as_str().as_bytes()).expect("a converted integer")
}

pub fn optional(number: Option<u64>) -> [u64; 2] {
    number.map_or([0, 0], |number| [1, number])
}

/// The integers as the Rust converts them: a field's condition goes before its description,
/// and all else as it stands.
pub fn collect_integers<'i>(node: &Node<'i>, found: &mut Vec<Node<'i>>) {
    let mut parts = children(node);
    match node.as_rule() {
        Rule::integer => found.push(node.clone()),
        Rule::field => parts.reverse(),
        _ => {}
    }
    for part in &parts {
        collect_integers(part, found);
    }
}

pub fn is_name(node: &Node) -> bool {
    matches!(node.as_rule(), Rule::identifier | Rule::payload_identifier | Rule::body_identifier)
}

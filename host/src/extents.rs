//! What pest takes of a text by each single rule.

use crate::parser::{PDLParser, Rule};
use crate::place::blanks;
use pest::Parser;

/// All rules in the printed order, behind pest's own EOI.
pub const RULES: [Rule; 60] = [
    Rule::EOI,
    Rule::WHITESPACE,
    Rule::COMMENT,
    Rule::block_comment,
    Rule::line_comment,
    Rule::alpha,
    Rule::digit,
    Rule::hexdigit,
    Rule::alphanum,
    Rule::identifier,
    Rule::payload_identifier,
    Rule::body_identifier,
    Rule::intvalue,
    Rule::hexvalue,
    Rule::integer,
    Rule::string,
    Rule::size_modifier,
    Rule::ENUM,
    Rule::PACKET,
    Rule::STRUCT,
    Rule::GROUP,
    Rule::CHECKSUM,
    Rule::CUSTOM_FIELD,
    Rule::TEST,
    Rule::endianness_declaration,
    Rule::enum_value,
    Rule::enum_value_list,
    Rule::enum_range,
    Rule::enum_other,
    Rule::enum_tag,
    Rule::enum_tag_list,
    Rule::enum_declaration,
    Rule::constraint,
    Rule::constraint_list,
    Rule::checksum_field,
    Rule::padding_field,
    Rule::size_field,
    Rule::count_field,
    Rule::elementsize_field,
    Rule::body_field,
    Rule::payload_field,
    Rule::fixed_field,
    Rule::reserved_field,
    Rule::array_field,
    Rule::scalar_field,
    Rule::typedef_field,
    Rule::group_field,
    Rule::field_desc,
    Rule::field,
    Rule::field_list,
    Rule::packet_declaration,
    Rule::struct_declaration,
    Rule::group_declaration,
    Rule::checksum_declaration,
    Rule::custom_field_declaration,
    Rule::test_case,
    Rule::test_case_list,
    Rule::test_declaration,
    Rule::declaration,
    Rule::file,
];

/// The rules whose extent pest does not tell by itself, and how it is known.
pub const THROUGH_OTHERS: [(Rule, &str); 4] = [
    (Rule::WHITESPACE, "one byte, where pest matches"),
    (Rule::block_comment, "through COMMENT, which alone runs it as pest does in a source"),
    (Rule::line_comment, "through COMMENT, likewise"),
    (Rule::test_case_list, "through its last test_case, and the blanks and the comma behind it"),
];

/// How much a rule takes at the front of a text, if it matches there.
pub fn extent(rule: Rule, text: &str) -> Option<usize> {
    match rule {
        Rule::block_comment if !text.starts_with("/*") => None,
        Rule::line_comment if !text.starts_with("//") => None,
        Rule::block_comment | Rule::line_comment => extent(Rule::COMMENT, text),
        _ => {
            let pairs = PDLParser::parse(rule, text).ok()?;
            let end = |pair: pest::iterators::Pair<Rule>| pair.as_span().end();
            Some(match rule {
                // Silent rules: no pair, and a pair for each case.
                Rule::WHITESPACE => 1,
                Rule::test_case_list => {
                    let cases = pairs.filter(|pair| pair.as_rule() == Rule::test_case);
                    let end = blanks(text, cases.map(end).last().expect("one case at least"));
                    end + usize::from(text[end..].starts_with(','))
                }
                // One pair, also of the silent choices.
                _ => pairs.map(end).next().expect("a pair"),
            })
        }
    }
}

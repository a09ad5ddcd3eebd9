//! All rules on a part, on the port and on pest.

use host::extents::{extent, RULES, THROUGH_OTHERS};
use host::parser::{PDLParser, Rule};
use host::port;
use host::tally::Tally;
use pest::Parser;

/// How often a rule matched and how often it missed.
#[derive(Clone, Copy, Default)]
struct Counts {
    hits: u64,
    misses: u64,
}

pub struct Matchers<'t> {
    tally: &'t mut Tally,
    parts: u64,
    counts: [Counts; RULES.len()],
}

impl Matchers<'_> {
    pub fn new(tally: &mut Tally) -> Matchers<'_> {
        tally.check(|| {
            let numbers = RULES.map(|rule| rule as usize);
            assert!(numbers.into_iter().eq(0..RULES.len()), "RULES is not the printed order");
        });
        Matchers { tally, parts: 0, counts: [Counts::default(); RULES.len()] }
    }

    /// Holds every rule's two extents at the front of a part against each other.
    pub fn part(&mut self, part: &str) {
        self.parts += 1;
        for (rule, counts) in RULES.into_iter().zip(&mut self.counts) {
            self.tally.check(|| {
                let wanted = extent(rule, part);
                assert_eq!(port::extent(rule, part.as_bytes()), wanted, "{rule:?} of {part:?}");
                match wanted {
                    Some(_) => counts.hits += 1,
                    None => counts.misses += 1,
                }
            });
        }
    }

    /// The same of a node's text, which its own rule takes whole.
    pub fn node(&mut self, rule: Rule, part: &str) {
        self.tally.check(|| {
            let extent = port::extent(rule, part.as_bytes());
            assert_eq!(extent, Some(part.len()), "{rule:?} of its own {part:?}");
        });
        self.part(part);
    }

    pub fn print(&mut self, group: &str) {
        let hits: u64 = self.counts.iter().map(|counts| counts.hits).sum();
        let misses: u64 = self.counts.iter().map(|counts| counts.misses).sum();
        println!("{group}: {} parts so far, hits {hits}, misses {misses}", self.parts);
    }

    /// Prints the counts of each rule and requires that each has matched and missed often.
    pub fn finish(self, count: usize) {
        let Matchers { tally, counts, .. } = self;
        for (rule, Counts { hits, misses }) in RULES.into_iter().zip(counts) {
            let how = THROUGH_OTHERS.iter().find(|(other, _)| *other == rule);
            let how = how.map_or(String::new(), |(_, how)| format!(" ({how})"));
            println!("{rule:?}: hits {hits}, misses {misses}{how}");
            tally.check(|| {
                let least = count as u64 / 8;
                assert!(hits >= least && misses >= least, "{rule:?} matched or missed seldom");
            });
        }
        tally.check(|| {
            for number in [RULES.len() as u64, u64::MAX] {
                assert_eq!(port::extent_of(number, b""), None, "there is no rule {number}");
            }
        });
    }
}

/// The nodes of a source that the grammar matches, with their texts.
pub fn nodes(source: &str) -> Vec<(Rule, &str)> {
    let file = PDLParser::parse(Rule::file, source).expect("a source that the grammar matches");
    file.flatten().map(|node| (node.as_rule(), node.as_str())).collect()
}

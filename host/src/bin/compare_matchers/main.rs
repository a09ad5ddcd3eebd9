//! Compares the port's matcher of every rule with pest's on parts of sources.

mod matchers;

use host::cases;
use host::parser::Rule;
use host::sources::{self, FRAMES};
use host::tally::{asked, Asked, Tally};
use matchers::{nodes, Matchers};
use std::iter::repeat_n;
use std::process::ExitCode;

/// How many sources are cut into parts, and the seed, unless the arguments say otherwise.
const USUAL: Asked = Asked { count: 800, seed: 21 };

/// The letters that a short text has at most: all such texts are tried.
const SHORT: u32 = 3;

fn main() -> ExitCode {
    let asked = match asked(USUAL) {
        Ok(asked) => asked,
        Err(usage) => return usage,
    };
    let mut tally = Tally::default();
    let mut matchers = Matchers::new(&mut tally);
    by_hand(asked, &mut matchers);
    generated(asked, &mut matchers);
    short(&mut matchers);
    matchers.finish(asked.count);
    tally.verdict()
}

/// The sources by hand, whole and cut at every token.
fn by_hand(asked: Asked, matchers: &mut Matchers) {
    let mut rng = asked.rng(0);
    for source in cases::sources().iter().filter(|source| source.len() < 1000) {
        if let Ok(source) = std::str::from_utf8(source) {
            matchers.part(source);
            for part in sources::cuts(&mut rng, source) {
                matchers.part(part);
            }
        }
    }
    matchers.print("by hand");
}

/// Sources by chance: cut at every token, each node alone, and damaged copies of both.
fn generated(asked: Asked, matchers: &mut Matchers) {
    let mut rng = asked.rng(1);
    for _ in 0..asked.count {
        let source = sources::valid(&mut rng);
        matchers.part(&source);
        let nodes = nodes(&source);
        for (rule, part) in &nodes {
            matchers.node(*rule, part);
        }
        let cuts = sources::cuts(&mut rng, &source);
        for part in &cuts {
            matchers.part(part);
        }
        // A token alone is damaged once, what is made of several more often.
        let several = |rule: Rule| rule as usize > Rule::TEST as usize;
        let copies = |(rule, part)| repeat_n(part, if several(rule) { 4 } else { 1 });
        for part in cuts.into_iter().chain(nodes.into_iter().flat_map(copies)) {
            let copy = sources::damaged(&mut rng, part.as_bytes(), source.as_bytes());
            if let Ok(copy) = std::str::from_utf8(&copy) {
                matchers.part(copy);
            }
        }
    }
    matchers.print("generated");
}

/// Every short text over small alphabets.
fn short(matchers: &mut Matchers) {
    for frame in FRAMES {
        for text in frame.texts(SHORT) {
            matchers.part(&text);
        }
    }
    matchers.print("short");
}

//! Compares both forms of the port's aligner, and its feeding, with the oracle: every answer, every
//! word of the state and every word of the tables.

mod both;
mod calls;
mod feedings;
mod readings;
mod tables;

use calls::{CALL, END, STATE, WRAPPED};
use feedings::{DAMAGED, WHOLE};
use host::sources::corpus;
use host::tally::{asked, Asked, Seen, Tally};
use std::process::ExitCode;

/// How many sequences of calls, and how many sources, are made, and the seed, unless the arguments
/// say otherwise.
const USUAL: Asked = Asked { count: 12_000, seed: 11 };

/// How many sequences and feedings a usual run has to compare.
const LEAST: u64 = 200_000;

fn main() -> ExitCode {
    let asked = match asked(USUAL) {
        Ok(asked) => asked,
        Err(usage) => return usage,
    };
    let mut tally = Tally::default();
    readings::check(&mut tally);
    states(asked, &mut tally);
    let before = tally.passed;
    sequences(asked, &mut tally);
    feedings(asked, &mut tally);
    realistic(asked, &mut tally);
    let compared = tally.passed - before;
    println!("{compared} sequences and feedings are the same");
    tally.check(|| assert!(compared >= LEAST || asked.count < USUAL.count, "not {LEAST} compared"));
    tally.verdict()
}

/// Sequences of calls, each made over tables of every size around what it needs.
fn sequences(asked: Asked, tally: &mut Tally) {
    let count = asked.count;
    let mut rng = asked.rng(0);
    let mut seen = Seen::default();
    for _ in 0..count {
        let calls = calls::any(&mut rng);
        for words in tables::around(calls::need(&calls)) {
            tally.check(|| calls::compare(&calls, words, &mut seen));
        }
    }
    tally.check(|| {
        seen.require(CALL, [0, 10, 11, 12, 13], count);
        seen.require(END, [0, 16], count);
        seen.require(WRAPPED, [12], count / 2);
    });
    seen.print("sequences");
}

/// States of any words, on which every call is refused or goes on as 01 says.
fn states(asked: Asked, tally: &mut Tally) {
    let count = asked.count;
    let mut rng = asked.rng(1);
    let mut seen = Seen::default();
    for _ in 0..count * 4 {
        tally.check(|| calls::compare_state(&mut rng, &mut seen));
    }
    tally.check(|| seen.require(STATE, [0, 10, 11, 12, 13, 16, 18], count / 16));
    seen.print("states");
}

/// Rows that the oracle makes of sources, whole and damaged.
fn feedings(asked: Asked, tally: &mut Tally) {
    let count = asked.count;
    let mut rng = asked.rng(2);
    let mut seen = Seen::default();
    for _ in 0..count {
        feedings::compare(&mut rng, tally, &mut seen);
    }
    tally.check(|| {
        seen.require(WHOLE, [0, 10, 12, 13, 14, 15, 16], count / 20);
        seen.require(DAMAGED, [0, 10, 12, 13, 14, 15, 16, 17], count / 20);
    });
    seen.print("feedings");
}

/// Every declaration of descriptions as people have them.
fn realistic(asked: Asked, tally: &mut Tally) {
    let mut rng = asked.rng(3);
    let mut seen = Seen::default();
    for _ in 0..asked.count / 2_000 {
        for source in corpus(&mut rng) {
            feedings::compare_whole(&source, tally, &mut seen);
        }
    }
    tally.check(|| seen.require(WHOLE, [0, 13, 14, 15], asked.count / 40));
    seen.print("declarations of descriptions");
}

//! Compares the port's reading with the oracle's: number, place, reason, counts, endianness, and
//! every word of every table and beside it, over tables of all sizes around what is needed.

mod compare;
mod lent;
mod replay;

use compare::{Run, ANSWER, REASON, SHORT};
use host::answer::Limits;
use host::cases;
use host::sources::{self, corpus, FRAMES};
use host::tally::{asked, Asked};
use std::io;
use std::process::ExitCode;

/// How many valid sources are made, as many damaged ones, and the seed, unless the arguments say
/// otherwise.
const USUAL: Asked = Asked { count: 70_000, seed: 41 };

/// How many sources a usual run has to compare.
const LEAST: u64 = 200_000;

/// The letters that a short text has at most: all such texts are tried.
const LETTERS: u32 = 4;

fn main() -> io::Result<ExitCode> {
    let asked = match asked(USUAL) {
        Ok(asked) => asked,
        Err(usage) => return Ok(usage),
    };
    let mut run = Run::default();
    replay::check(&mut run.tally)?;
    by_hand(&mut run);
    short(asked, &mut run);
    valid(asked, &mut run);
    damaged(asked, &mut run);
    long(asked, &mut run);
    longest(asked, &mut run);
    realistic(asked, &mut run);
    let Run { mut tally, seen, sources } = run;
    seen.print("answers");
    println!("{sources} sources, {} readings are the same", tally.passed);
    tally.check(|| {
        seen.require(ANSWER, [0, 2, 3, 4, 5], asked.count / 50);
        seen.require(ANSWER, [1], 4);
        seen.require(SHORT, 1..=5, asked.count / 10);
        seen.require(REASON, [2, 3], asked.count / 50);
        assert!(sources >= LEAST || asked.count < USUAL.count, "not {LEAST} sources");
    });
    Ok(tally.verdict())
}

/// The sources by hand.
fn by_hand(run: &mut Run) {
    for source in cases::sources() {
        run.every_size(&source);
    }
}

/// Every short text over small alphabets, in its frame.
fn short(asked: Asked, run: &mut Run) {
    let mut rng = asked.rng(0);
    for source in FRAMES.iter().flat_map(|frame| frame.sources_up_to(LETTERS)) {
        run.sizes(&mut rng, source.as_bytes());
    }
}

fn valid(asked: Asked, run: &mut Run) {
    let mut rng = asked.rng(1);
    for _ in 0..asked.count {
        let source = sources::valid(&mut rng);
        run.sizes(&mut rng, source.as_bytes());
    }
}

fn damaged(asked: Asked, run: &mut Run) {
    let mut rng = asked.rng(2);
    let mut other = String::new();
    for _ in 0..asked.count {
        let source = sources::valid(&mut rng);
        let copy = sources::damaged(&mut rng, source.as_bytes(), other.as_bytes());
        run.sizes(&mut rng, &copy);
        other = source;
    }
}

/// Many declarations, and a source over every size of tables now and then.
fn long(asked: Asked, run: &mut Run) {
    let mut rng = asked.rng(3);
    for _ in 0..asked.count / 100 {
        let declarations = 5 + rng.below(60);
        let source = sources::declarations(&mut rng, declarations);
        run.sizes(&mut rng, source.as_bytes());
        let source = sources::valid(&mut rng);
        run.every_size(source.as_bytes());
    }
}

/// Sources as long as the library takes, and longer by a byte.
fn longest(asked: Asked, run: &mut Run) {
    let mut rng = asked.rng(4);
    let bytes = Limits::library([0; 5]).bytes;
    for more in [0, 1, 2] {
        let source = sources::valid(&mut rng);
        let source = sources::padded(&mut rng, &source, bytes - 1 + more);
        run.sizes(&mut rng, source.as_bytes());
    }
    for more in [0, 1] {
        run.sizes(&mut rng, &vec![0xff; bytes + more]);
    }
}

/// Descriptions as people have them, and damaged copies of them.
fn realistic(asked: Asked, run: &mut Run) {
    let mut rng = asked.rng(5);
    for _ in 0..asked.count / 10_000 {
        for source in corpus(&mut rng) {
            run.sizes(&mut rng, source.as_bytes());
            let copy = sources::damaged(&mut rng, source.as_bytes(), b"");
            run.sizes(&mut rng, &copy);
        }
    }
}

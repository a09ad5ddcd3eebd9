//! Holds the port's reading and the oracle's against demand 3 and W12: where more is written behind
//! a source or into it, old rows stand, and every other row moves as 01 and 02 say.

mod compare;
mod notes;

use compare::{ends, Run};
use host::answer::Limits;
use host::cases;
use host::moving::{More, KEYWORD_LINES};
use host::sources::{self, SPARSE};
use host::tally::{asked, Asked};
use std::process::ExitCode;

/// How often more is made to go behind a source, and about as often to go into one, and the seed,
/// unless the arguments say otherwise. What is not accepted by itself is left out.
const USUAL: Asked = Asked { count: 30_000, seed: 51 };

/// How many different pairs, and how many different cuts, a run has to make by chance: fewer is a
/// failure, also of a run that was asked for fewer.
const LEAST: usize = 20_000;

fn main() -> ExitCode {
    let asked = match asked(USUAL) {
        Ok(asked) => asked,
        Err(usage) => return usage,
    };
    let mut run = Run::default();
    by_hand(&mut run);
    let by_hand = [run.appended.len(), run.inserted.len()];
    append(asked, &mut run);
    insert(asked, &mut run);
    long(asked, &mut run);
    longest(asked, &mut run);
    let Run { mut tally, seen, appended, inserted } = run;
    seen.print("seams");
    let by_chance = [appended.len() - by_hand[0], inserted.len() - by_hand[1]];
    for (how, [pairs, cuts]) in [("by hand", by_hand), ("by chance", by_chance)] {
        println!("{how}: {pairs} different pairs, {cuts} different cuts");
    }
    tally.check(|| {
        notes::require(&seen, asked.count / 100);
        assert!(by_chance.iter().all(|count| *count >= LEAST), "not {LEAST} pairs and cuts");
    });
    tally.verdict()
}

/// Every source by hand with every text by hand that is accepted behind its keyword line.
fn by_hand(run: &mut Run) {
    let utf8 = |source| String::from_utf8(source).expect("a source in UTF-8");
    let sources: Vec<String> = cases::matched().into_iter().map(utf8).collect();
    let texts =
        sources.iter().flat_map(|source| KEYWORD_LINES.map(|line| source.strip_prefix(line)));
    let texts: Vec<&str> = texts.flatten().chain(SPARSE.iter().copied()).collect();
    let mores: Vec<More> = KEYWORD_LINES
        .iter()
        .flat_map(|line| texts.iter().map(move |text| (line, text)))
        .filter_map(|(line, text)| run.more(line, text.to_string()))
        .collect();
    for source in &sources {
        let Some(old) = run.old(source.clone()) else { continue };
        for more in mores.iter().filter(|more| more.keyword_line == old.keyword_line()) {
            run.append(&old, more);
            ends(&old.source).into_iter().for_each(|end| run.insert(&old, end, more));
        }
    }
}

fn append(asked: Asked, run: &mut Run) {
    let mut rng = asked.rng(0);
    for _ in 0..asked.count {
        let source = sources::ended(&mut rng);
        behind(run, source, sources::more(&mut rng));
    }
}

/// A source has two declarations on the average.
fn insert(asked: Asked, run: &mut Run) {
    let mut rng = asked.rng(1);
    for _ in 0..asked.count / 2 {
        let source = sources::ended(&mut rng);
        behind_each(run, source, || sources::more(&mut rng));
    }
}

/// Many declarations.
fn long(asked: Asked, run: &mut Run) {
    let mut rng = asked.rng(2);
    for _ in 0..asked.count / 1000 {
        let declarations = 5 + rng.below(60);
        let source = sources::declarations(&mut rng, declarations);
        behind(run, source.clone(), sources::more(&mut rng));
        behind_each(run, source, || sources::more(&mut rng));
    }
}

/// Whole sources as long as the library takes.
fn longest(asked: Asked, run: &mut Run) {
    let mut rng = asked.rng(3);
    let bytes = Limits::library([0; 5]).bytes;
    for _ in 0..3 {
        let [source, text] = [sources::valid(&mut rng), sources::more(&mut rng)];
        let old = sources::padded(&mut rng, &source, bytes - text.len() - 1);
        behind(run, old, text.clone());
        let old = sources::padded(&mut rng, &source, bytes - text.len() - 2);
        behind_each(run, old, || text.clone());
    }
}

/// A text behind a source, where both are accepted.
fn behind(run: &mut Run, source: String, text: String) {
    let Some(old) = run.old(source) else { return };
    if let Some(more) = run.more(old.keyword_line(), text) {
        run.append(&old, &more);
    }
}

/// A text behind each declaration of a source, where both are accepted.
fn behind_each(run: &mut Run, source: String, mut text: impl FnMut() -> String) {
    let Some(old) = run.old(source) else { return };
    for end in ends(&old.source) {
        if let Some(more) = run.more(old.keyword_line(), text()) {
            run.insert(&old, end, &more);
        }
    }
}

//! Counting what was checked, and what was seen on the way.

use crate::sources::Rng;
use std::collections::BTreeMap;
use std::panic::{self, AssertUnwindSafe};
use std::process::ExitCode;

/// What a run is asked for: how much, and the seed of what it makes by chance.
#[derive(Clone, Copy)]
pub struct Asked {
    pub count: usize,
    pub seed: u64,
}

impl Asked {
    /// Chance for one part of the run.
    pub fn rng(self, part: u64) -> Rng {
        Rng::new(self.seed.wrapping_add(part))
    }
}

/// The numbers behind `--count` and `--seed`, or the usual ones. Tells how the program is used
/// where the words are others, and gives the exit status for that.
pub fn asked(usual: Asked) -> Result<Asked, ExitCode> {
    let arguments: Vec<String> = std::env::args().collect();
    let asked = arguments[1..].chunks(2).try_fold(usual, |asked, words| match words {
        [flag, count] if flag == "--count" => Some(Asked { count: count.parse().ok()?, ..asked }),
        [flag, seed] if flag == "--seed" => Some(Asked { seed: seed.parse().ok()?, ..asked }),
        _ => None,
    });
    asked.ok_or_else(|| {
        eprintln!("usage: {} [--count number] [--seed number]", arguments[0]);
        ExitCode::from(2)
    })
}

/// Checks that passed and checks that failed.
#[derive(Default)]
pub struct Tally {
    pub passed: u64,
    pub failed: u64,
}

impl Tally {
    /// Runs a check. A panic is a failure, and has said what is wrong.
    pub fn check(&mut self, check: impl FnOnce()) {
        match panic::catch_unwind(AssertUnwindSafe(check)) {
            Ok(()) => self.passed += 1,
            Err(_) => self.failed += 1,
        }
    }

    /// The last line of a run, and its exit status.
    pub fn verdict(&self) -> ExitCode {
        println!("{} passed, {} failed", self.passed, self.failed);
        ExitCode::from(u8::from(self.failed > 0))
    }
}

/// How often each number was seen, for each thing that has numbers.
#[derive(Default)]
pub struct Seen(BTreeMap<&'static str, BTreeMap<u64, u64>>);

impl Seen {
    pub fn note(&mut self, what: &'static str, number: u64) {
        *self.0.entry(what).or_default().entry(number).or_default() += 1;
    }

    pub fn count(&self, what: &str, number: u64) -> u64 {
        self.0.get(what).and_then(|numbers| numbers.get(&number)).copied().unwrap_or(0)
    }

    /// Panics unless each of the numbers was seen so often.
    pub fn require(&self, what: &str, numbers: impl IntoIterator<Item = u64>, least: usize) {
        for number in numbers {
            let count = self.count(what, number);
            assert!(count >= least as u64, "{what} {number}: seen {count} times, not {least}");
        }
    }

    /// Prints what was seen as one line.
    pub fn print(&self, group: &str) {
        let things = self.0.iter().map(|(what, numbers)| {
            let counts = numbers.iter().map(|(number, count)| format!(" {number}: {count}"));
            format!("{what}{}", counts.collect::<Vec<_>>().join(","))
        });
        println!("{group}: {}", things.collect::<Vec<_>>().join("; "));
    }
}

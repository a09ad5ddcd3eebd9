//! One source over tables of many sizes, on the port and on the oracle.

use crate::lent::{self, Lent, Sizes};
use host::answer::{fit, read, write, Limits};
use host::port;
use host::reading::{Reading, Refusal};
use host::sources::Rng;
use host::tally::{Seen, Tally};

/// Under these names are counted: the numbers of all answers, the tables that were too short, and
/// the reasons for which an integer did not convert.
pub const ANSWER: &str = "answer";
pub const SHORT: &str = "short table";
pub const REASON: &str = "reason";

/// How many sources were compared, and how often each with tables of one size.
#[derive(Default)]
pub struct Run {
    pub tally: Tally,
    pub seen: Seen,
    pub sources: u64,
}

impl Run {
    /// A source over tables of every size around what it needs.
    pub fn every_size(&mut self, source: &[u8]) {
        let answer = self.answer(source);
        let rows = rows(&answer);
        for sizes in lent::around(rows).into_iter().chain(lent::every(rows)) {
            self.compare(source, &answer, sizes);
        }
    }

    /// A source over tables around what it needs, over tables that grow up to that, and over a few
    /// by chance. What is refused for itself is tried over those alone.
    pub fn sizes(&mut self, rng: &mut Rng, source: &[u8]) {
        let answer = self.answer(source);
        let rows = rows(&answer);
        if answer.is_ok() {
            for sizes in lent::around(rows).into_iter().chain(lent::growing(rows)) {
                self.compare(source, &answer, sizes);
            }
        }
        for _ in 0..3 {
            self.compare(source, &answer, lent::by_chance(rng, rows));
        }
    }

    /// What the oracle answers to a source when every table is large enough.
    fn answer(&mut self, source: &[u8]) -> Result<Reading, Refusal> {
        self.sources += 1;
        read(source, Limits::library([0; 5]).bytes)
    }

    /// Every word that the port answers and every word that it leaves.
    pub fn compare(&mut self, source: &[u8], answer: &Result<Reading, Refusal>, sizes: Sizes) {
        self.tally.check(|| {
            let answer = answer.clone().and_then(|reading| fit(reading, lent::rows(sizes)));
            let mut wanted = Lent::new(sizes);
            let words = write(&answer, wanted.tables());
            let mut left = Lent::new(sizes);
            let answered = port::read(source, left.tables());
            let shown = || format!("{:?} over {sizes:?} words", source.escape_ascii().to_string());
            assert_eq!(answered, words, "{}", shown());
            assert!(left == wanted, "the words left by {}", shown());
            let Refusal { number, place, reason } = answered.refusal;
            self.seen.note(ANSWER, number);
            match number {
                4 => self.seen.note(REASON, reason),
                5 => self.seen.note(SHORT, place),
                _ => {}
            }
        });
    }
}

/// The rows that a reading needs; what is refused for itself is tried with a row or two.
fn rows(answer: &Result<Reading, Refusal>) -> [u64; 5] {
    answer.as_ref().map_or([2, 1, 1, 1, 1], Reading::counts)
}
